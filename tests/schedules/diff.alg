# Error diffusion: an update over two variables reads what it has set.
pipeline diff;
input in u8 [7, 6];
func e i32 (x, y) = i32(in[clamp(x, 0, 6), clamp(y, 0, 5)]);
update e over (rx 1..6, ry 1..5) [rx, ry] = e[rx, ry] + (e[rx - 1, ry] + e[rx, ry - 1]) / 4;
func out u8 (x, y) = u8(clamp(e[x, y], 0, 255));
output out [7, 6];
