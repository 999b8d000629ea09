# Three steps along a line, the last one mirrored.
pipeline c;
input in u8 [17];
func f u8 (x) = in[clamp(x, 0, 16)] + 1u8;
func g u8 (x) = f[x] + f[clamp(x + 1, 0, 16)];
func out u8 (x) = g[x] + g[16 - x];
output out [17];
