pipeline unsharp;
input in u8 [@W@, @H@];
func across u16 (x, y) = u16(in[clamp(x - 1, 0, @RIGHT@), y]) + 2u16 * u16(in[x, y]) + u16(in[clamp(x + 1, 0, @RIGHT@), y]);
func blurred u16 (x, y) = (across[x, clamp(y - 1, 0, @BOTTOM@)] + 2u16 * across[x, y] + across[x, clamp(y + 1, 0, @BOTTOM@)] + 8u16) / 16u16;
func out u8 (x, y) = u8(clamp(2i16 * i16(in[x, y]) - i16(blurred[x, y]), 0i16, 255i16));
output out [@W@, @H@];
