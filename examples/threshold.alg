# White where a pixel is 128 or more, else black.
pipeline threshold;
input in u8 [16, 12];
func out u8 (x, y) = (min(max(in[x, y], 127u8), 128u8) - 127u8) * 255u8;
output out [16, 12];
