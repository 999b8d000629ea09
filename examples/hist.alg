# How many pixels have each value.
pipeline hist;
input in u8 [3, 2];
func h u16 (i) = 0u16;
update h over (rx 0..2, ry 0..1) [i32(in[rx, ry])] = h[i32(in[rx, ry])] + 1u16;
output h [256];
