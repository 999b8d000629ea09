pipeline sum;
input in u8 [2, 2];
func out u8 (x, y) = 0u8;
update out over (a 0..1, b 0..1, c 0..1) [x, y] = out[x, y] * 2u8 + u8(b) + in[x, y];
output out [2, 2];
