# An unsharp mask in three steps.
pipeline un;
input in u8 [11, 12];
func bx u16 (x, y) = u16(in[clamp(x - 1, 0, 10), clamp(y, 0, 11)]) + 2u16 * u16(in[clamp(x, 0, 10), clamp(y, 0, 11)]) + u16(in[clamp(x + 1, 0, 10), clamp(y, 0, 11)]);
func by u16 (x, y) = (bx[x, y - 1] + 2u16 * bx[x, y] + bx[x, y + 1]) / 16u16;
func out u8 (x, y) = u8(clamp(2 * i32(in[clamp(x, 0, 10), clamp(y, 0, 11)]) - i32(by[x, y]), 0, 255));
output out [11, 12];
