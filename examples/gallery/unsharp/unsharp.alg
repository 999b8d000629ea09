# Unsharp mask of a colour picture: each pixel is made as much brighter as its grey is above its blurred grey.
pipeline unsharp;
input in u8 [@W@, @H@, 3];
func grey u16 (x, y) = (u16(in[clamp(x, 0, @W-1@), clamp(y, 0, @H-1@), 0]) * 77u16
    + u16(in[clamp(x, 0, @W-1@), clamp(y, 0, @H-1@), 1]) * 150u16
    + u16(in[clamp(x, 0, @W-1@), clamp(y, 0, @H-1@), 2]) * 29u16) / 256u16;

# Seven taps of the binomial weights 1 6 15 20 15 6 1, first down and then across.
func down u16 (x, y) = grey[x, y - 3] + grey[x, y + 3] + 6u16 * (grey[x, y - 2] + grey[x, y + 2])
    + 15u16 * (grey[x, y - 1] + grey[x, y + 1]) + 20u16 * grey[x, y];
func blur u16 (x, y) = u16((u32(down[x - 3, y]) + u32(down[x + 3, y]) + 6u32 * (u32(down[x - 2, y]) + u32(down[x + 2, y]))
    + 15u32 * (u32(down[x - 1, y]) + u32(down[x + 1, y])) + 20u32 * u32(down[x, y]) + 2048u32) / 4096u32);

# How much brighter, with 8 bits behind the point, at most four times.
func sharp i32 (x, y) = max(i32(grey[x, y]) * 3 - i32(blur[x, y]) * 2, 0);
func ratio u32 (x, y) = min(u32(sharp[x, y]) * 256u32 / u32(max(grey[x, y], 1u16)), 1024u32);
func out u8 (x, y, c) = u8(min((u32(in[x, y, c]) * ratio[x, y] + 128u32) / 256u32, 255u32));
output out [@W@, @H@, 3];
