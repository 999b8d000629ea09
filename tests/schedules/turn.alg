# A picture turned by a quarter.
pipeline turn;
input in u8 [8, 8];
func f u8 (x, y) = in[clamp(x, 0, 7), clamp(y, 0, 7)] + u8(x);
func out u8 (x, y) = f[y, 7 - x];
output out [8, 8];
