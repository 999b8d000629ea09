pipeline box;
input in u8 [@W@, @H@];
func across u16 (x, y) = u16(in[clamp(x - 1, 0, @RIGHT@), y]) + u16(in[x, y]) + u16(in[clamp(x + 1, 0, @RIGHT@), y]);
func out u8 (x, y) = u8((across[x, clamp(y - 1, 0, @BOTTOM@)] + across[x, y] + across[x, clamp(y + 1, 0, @BOTTOM@)]) / 9u16);
output out [@W@, @H@];
