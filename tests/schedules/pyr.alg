# Half the size, and back.
pipeline pyr;
input in u8 [12, 10];
func d u16 (x, y) = u16(in[clamp(2 * x, 0, 11), clamp(2 * y, 0, 9)]) + u16(in[clamp(2 * x + 1, 0, 11), clamp(2 * y + 1, 0, 9)]);
func out u8 (x, y) = u8(d[x / 2, y / 2] / 2u16);
output out [12, 10];
