# A table of 256 values, read at the value of a pixel.
pipeline lut;
input in u8 [7, 5];
func t u8 (i) = u8(255 - i);
func out u8 (x, y) = t[i32(in[clamp(x, 0, 6), clamp(y, 0, 4)])];
output out [7, 5];
