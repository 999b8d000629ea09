pipeline scan;
input in u8 [@W@, @H@];
func s u32 (x, y) = u32(in[x, y]);
update s over (r 1..@RIGHT@) [r, y] = s[r, y] + s[r - 1, y];
func out u8 (x, y) = u8(s[x, y] / u32(x + 1));
output out [@W@, @H@];
