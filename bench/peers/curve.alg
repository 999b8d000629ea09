pipeline curve;
input in u8 [@W@, @H@, 3];
func out u8 (x, y, c) = u8(u16(in[x, y, c]) * (510u16 - u16(in[x, y, c])) / 255u16);
output out [@W@, @H@, 3];
