pipeline sum;
input in u8 [2];
func out u8 (x) = 0u8;
update out over (a 0..1, b 0..1, c 0..1) [x] = out[x] * 2u8 + u8(b) + in[x];
output out [2];
