pipeline p; input in u8 [4]; func out u8 (x) = select(x < 0, in[x - 1], in[x]); output out [4];
