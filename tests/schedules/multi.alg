# Three updates, two of which set rows or columns alone.
pipeline multi;
input in u8 [6, 6];
func s i32 (x, y) = 0;
update s over (r 0..2) [x, y] = s[x, y] + i32(in[clamp(x + r, 0, 5), clamp(y, 0, 5)]);
update s over (z 0..0) [x, z] = s[x, z] * 2;
update s over (q 0..3) [q, y] = s[q, y] - s[q, y] / 2;
func out u8 (x, y) = u8(s[x, y]);
output out [6, 6];
