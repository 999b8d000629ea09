# Running sums along rows.
pipeline rows;
input in u8 [7, 6];
func s u16 (x, y) = u16(in[clamp(x, 0, 6), clamp(y, 0, 5)]);
update s over (r 1..6) [r, y] = s[r, y] + s[r - 1, y];
func out u8 (x, y) = u8(s[x, y] / 4u16);
output out [7, 6];
