# Reads far to the sides.
pipeline sh;
input in u8 [10, 7];
func f u8 (x, y) = in[clamp(x, 0, 9), clamp(y, 0, 6)] * 3u8;
func out u8 (x, y) = f[x + 2, y - 1] + f[x - 3, y + 4];
output out [10, 7];
