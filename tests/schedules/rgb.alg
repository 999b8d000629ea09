# A colour picture and its grey one.
pipeline rgb;
input in u8 [6, 5, 3];
func l u16 (x, y) = u16(in[clamp(x, 0, 5), clamp(y, 0, 4), 0]) + u16(in[clamp(x, 0, 5), clamp(y, 0, 4), 1]);
func out u8 (x, y, c) = u8(l[x, y] / 2u16) + in[clamp(x, 0, 5), clamp(y, 0, 4), clamp(c, 0, 2)];
output out [6, 5, 3];
