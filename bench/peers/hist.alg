pipeline hist;
input in u8 [@W@, @H@];
func h u32 (i) = 0u32;
update h over (rx 0..@RIGHT@, ry 0..@BOTTOM@) [i32(in[rx, ry])] = h[i32(in[rx, ry])] + 1u32;
func out u16 (i) = u16(min(h[clamp(i, 0, 255)], 65535u32));
output out [256];
