# One more than each of ten pixels.
pipeline tri;
input in u8 [10];
func out u8 (x) = in[clamp(x, 0, 9)] + 1u8;
output out [10];
