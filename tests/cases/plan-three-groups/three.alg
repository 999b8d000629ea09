pipeline three;
input in u8 [4];
func f u8 (x) = in[x] + 1u8;
func g u8 (x) = f[x] * 2u8;
func out u8 (x) = g[clamp(x - 1, 0, 3)] + f[x];
output out [4];
