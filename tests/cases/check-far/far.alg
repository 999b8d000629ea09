pipeline far; input in u8 [4]; func f u8 (x) = in[clamp(x, 0, 3)]; func out u8 (x) = f[x + 2147483647]; output out [4];
