# One more than each pixel, and one more than the pixel to its left. Past the left edge stands the pixel at the edge.
pipeline near;
input in u8 [4];
func f u8 (x) = in[x] + 1u8;
func out u8 (x) = f[clamp(x - 1, 0, 3)] + f[x];
output out [4];
