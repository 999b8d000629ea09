pipeline sum;
input in u8 [1, 1, 3];
func out u8 (x, y, z) = 0u8;
update out over (a 0..1, b 0..1, c 0..1) [x, y, z] = out[x, y, z] * 2u8 + u8(b) + in[x, y, z];
output out [1, 1, 3];
