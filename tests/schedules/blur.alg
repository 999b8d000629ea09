# A 3x3 box in two steps; the sums along the rows are read above and below the picture.
pipeline blur;
input in u8 [13, 11];
func h u16 (x, y) = u16(in[clamp(x - 1, 0, 12), clamp(y, 0, 10)]) + u16(in[clamp(x, 0, 12), clamp(y, 0, 10)]) + u16(in[clamp(x + 1, 0, 12), clamp(y, 0, 10)]);
func out u8 (x, y) = u8((h[x, y - 1] + h[x, y] + h[x, y + 1]) / 9u16);
output out [13, 11];
