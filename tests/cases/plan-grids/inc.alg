pipeline inc;
input in u8 [2, 10];
func out u8 (x, y) = in[x, y] + 1u8;
output out [2, 10];
