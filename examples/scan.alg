# Running sums: the first pixel stays, and each further one is added to the sum before it.
pipeline scan;
input in u8 [4];
func s u8 (x) = in[clamp(x, 0, 3)];
update s over (r 1..3) [r] = s[r] + s[r - 1];
output s [4];
