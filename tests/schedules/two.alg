# Two pixels, read straight and mirrored.
pipeline two;
input in u8 [2];
func f u8 (x) = in[clamp(x, 0, 1)] + 1u8;
func out u8 (x) = f[x] * 2u8 + f[1 - x];
output out [2];
