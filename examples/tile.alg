# One more than each pixel of a picture of 6 by 5; 255 wraps to 0.
pipeline tile;
input in u8 [6, 5];
func out u8 (x, y) = in[clamp(x, 0, 5), clamp(y, 0, 4)] + 1u8;
output out [6, 5];
