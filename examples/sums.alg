# The sum of the three pixels of each column.
pipeline sums;
input in u8 [4, 3];
func s u16 (x) = 0u16;
update s over (r 0..2) [x] = s[x] + u16(in[clamp(x, 0, 3), r]);
output s [4];
