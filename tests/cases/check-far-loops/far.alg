pipeline far; input in u8 [4]; func f u8 (x) = in[clamp(x, 0, 3)]; func out u8 (x) = in[x]; output out [4];
