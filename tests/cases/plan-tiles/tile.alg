pipeline tile;
input in u8 [6, 5];
func out u8 (x, y) = in[clamp(x - 1, 0, 5), clamp(y, 0, 4)] + 1u8;
output out [6, 5];
