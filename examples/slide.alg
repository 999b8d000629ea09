# The mean of a pixel of f and of those above and below; f is one more than the image. Past an edge stands the pixel at the edge.
pipeline slide;
input in u8 [4, 8];
func f u8 (x, y) = in[x, y] + 1u8;
func out u8 (x, y) = u8((u16(f[x, clamp(y - 1, 0, 7)]) + u16(f[x, y]) + u16(f[x, clamp(y + 1, 0, 7)])) / 3u16);
output out [4, 8];
