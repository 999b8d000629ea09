# Histogram equalisation: counts, running sums, and a table.
pipeline cum;
input in u8 [6, 6];
func h u32 (i) = 0u32;
update h over (rx 0..5, ry 0..5) [i32(in[rx, ry])] = h[i32(in[rx, ry])] + 1u32;
func c u32 (i) = h[i];
update c over (r 1..255) [r] = c[r] + c[r - 1];
func out u8 (x, y) = u8(c[i32(in[clamp(x, 0, 5), clamp(y, 0, 5)])] * 255u32 / 36u32);
output out [6, 6];
