# A histogram, read at two places.
pipeline hist;
input in u8 [5, 4];
func h u16 (i) = 0u16;
update h over (rx 0..4, ry 0..3) [i32(in[rx, ry])] = h[i32(in[rx, ry])] + 1u16;
func out u8 (x) = u8(h[x] + h[clamp(x * 2, 0, 255)]);
output out [256];
