# A 3x3 box as an update over a reduction domain.
pipeline box;
input in u8 [8, 9];
func b u16 (x, y) = 0u16;
update b over (rx -1..1, ry -1..1) [x, y] = b[x, y] + u16(in[clamp(x + rx, 0, 7), clamp(y + ry, 0, 8)]);
func out u8 (x, y) = u8(b[x, y] / 9u16);
output out [8, 9];
