pipeline blur5;
input in u8 [@W@, @H@];
func across u16 (x, y) = u16(in[clamp(x - 2, 0, @RIGHT@), y]) + u16(in[clamp(x + 2, 0, @RIGHT@), y])
    + 4u16 * (u16(in[clamp(x - 1, 0, @RIGHT@), y]) + u16(in[clamp(x + 1, 0, @RIGHT@), y])) + 6u16 * u16(in[x, y]);
func out u8 (x, y) = u8((across[x, clamp(y - 2, 0, @BOTTOM@)] + across[x, clamp(y + 2, 0, @BOTTOM@)]
    + 4u16 * (across[x, clamp(y - 1, 0, @BOTTOM@)] + across[x, clamp(y + 1, 0, @BOTTOM@)]) + 6u16 * across[x, y] + 128u16) / 256u16);
output out [@W@, @H@];
