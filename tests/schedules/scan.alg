# A running sum along a line.
pipeline scan;
input in u8 [9];
func s u8 (x) = in[clamp(x, 0, 8)];
update s over (r 1..8) [r] = s[r] + s[r - 1];
func out u8 (x) = s[x];
output out [9];
