# From a raw Bayer mosaic (12 bits, red first, black at 64) to a photograph.
pipeline photo;
input in u16 [@W@, @H@];

# The four planes of the mosaic, each of a quarter of the pixels. Past an edge stands the plane's pixel at the edge.
func raw_r u16 (x, y) = in[2 * clamp(x, 0, @(W+1)/2-1@), 2 * clamp(y, 0, @(H+1)/2-1@)];
func raw_gr u16 (x, y) = in[2 * clamp(x, 0, @W/2-1@) + 1, 2 * clamp(y, 0, @(H+1)/2-1@)];
func raw_gb u16 (x, y) = in[2 * clamp(x, 0, @(W+1)/2-1@), 2 * clamp(y, 0, @H/2-1@) + 1];
func raw_b u16 (x, y) = in[2 * clamp(x, 0, @W/2-1@) + 1, 2 * clamp(y, 0, @H/2-1@) + 1];

# Hot and dead pixels: none is brighter or darker than all four neighbours of its plane.
func hot_r u16 (x, y) = clamp(raw_r[x, y],
    min(min(raw_r[x - 1, y], raw_r[x + 1, y]), min(raw_r[x, y - 1], raw_r[x, y + 1])),
    max(max(raw_r[x - 1, y], raw_r[x + 1, y]), max(raw_r[x, y - 1], raw_r[x, y + 1])));
func hot_gr u16 (x, y) = clamp(raw_gr[x, y],
    min(min(raw_gr[x - 1, y], raw_gr[x + 1, y]), min(raw_gr[x, y - 1], raw_gr[x, y + 1])),
    max(max(raw_gr[x - 1, y], raw_gr[x + 1, y]), max(raw_gr[x, y - 1], raw_gr[x, y + 1])));
func hot_gb u16 (x, y) = clamp(raw_gb[x, y],
    min(min(raw_gb[x - 1, y], raw_gb[x + 1, y]), min(raw_gb[x, y - 1], raw_gb[x, y + 1])),
    max(max(raw_gb[x - 1, y], raw_gb[x + 1, y]), max(raw_gb[x, y - 1], raw_gb[x, y + 1])));
func hot_b u16 (x, y) = clamp(raw_b[x, y],
    min(min(raw_b[x - 1, y], raw_b[x + 1, y]), min(raw_b[x, y - 1], raw_b[x, y + 1])),
    max(max(raw_b[x - 1, y], raw_b[x + 1, y]), max(raw_b[x, y - 1], raw_b[x, y + 1])));

# Black taken off, white balance by gains of 8 bits behind the point, saturated at 12 bits.
func r i16 (x, y) = i16(min(u32(max(hot_r[x, y], 64u16) - 64u16) * 468u32 / 256u32, 4095u32));
func gr i16 (x, y) = i16(min(max(hot_gr[x, y], 64u16) - 64u16, 4095u16));
func gb i16 (x, y) = i16(min(max(hot_gb[x, y], 64u16) - 64u16, 4095u16));
func b i16 (x, y) = i16(min(u32(max(hot_b[x, y], 64u16) - 64u16) * 395u32 / 256u32, 4095u32));

# Green where red and blue stand: along the direction in which it changes less.
func g_r i16 (x, y) = select(
    max(gr[x - 1, y], gr[x, y]) - min(gr[x - 1, y], gr[x, y]) < max(gb[x, y - 1], gb[x, y]) - min(gb[x, y - 1], gb[x, y]),
    (gr[x - 1, y] + gr[x, y] + 1i16) / 2i16, (gb[x, y - 1] + gb[x, y] + 1i16) / 2i16);
func g_b i16 (x, y) = select(
    max(gb[x, y], gb[x + 1, y]) - min(gb[x, y], gb[x + 1, y]) < max(gr[x, y], gr[x, y + 1]) - min(gr[x, y], gr[x, y + 1]),
    (gb[x, y] + gb[x + 1, y] + 1i16) / 2i16, (gr[x, y] + gr[x, y + 1] + 1i16) / 2i16);

# Red and blue follow green: their differences from it are averaged, across a corner along the diagonal that changes less.
func d_r i16 (x, y) = r[x, y] - g_r[x, y];
func d_b i16 (x, y) = b[x, y] - g_b[x, y];
func r_gr i16 (x, y) = gr[x, y] + (d_r[x, y] + d_r[x + 1, y]) / 2i16;
func r_gb i16 (x, y) = gb[x, y] + (d_r[x, y] + d_r[x, y + 1]) / 2i16;
func r_b i16 (x, y) = g_b[x, y] + select(
    max(r[x, y], r[x + 1, y + 1]) - min(r[x, y], r[x + 1, y + 1]) < max(r[x + 1, y], r[x, y + 1]) - min(r[x + 1, y], r[x, y + 1]),
    (d_r[x, y] + d_r[x + 1, y + 1]) / 2i16, (d_r[x + 1, y] + d_r[x, y + 1]) / 2i16);
func b_gr i16 (x, y) = gr[x, y] + (d_b[x, y - 1] + d_b[x, y]) / 2i16;
func b_gb i16 (x, y) = gb[x, y] + (d_b[x - 1, y] + d_b[x, y]) / 2i16;
func b_r i16 (x, y) = g_r[x, y] + select(
    max(b[x - 1, y - 1], b[x, y]) - min(b[x - 1, y - 1], b[x, y]) < max(b[x, y - 1], b[x - 1, y]) - min(b[x, y - 1], b[x - 1, y]),
    (d_b[x - 1, y - 1] + d_b[x, y]) / 2i16, (d_b[x, y - 1] + d_b[x - 1, y]) / 2i16);

# The full colours, put together from the planes.
func red i16 (x, y) = select(y % 2 == 0,
    select(x % 2 == 0, r[x / 2, y / 2], r_gr[x / 2, y / 2]), select(x % 2 == 0, r_gb[x / 2, y / 2], r_b[x / 2, y / 2]));
func green i16 (x, y) = select(y % 2 == 0,
    select(x % 2 == 0, g_r[x / 2, y / 2], gr[x / 2, y / 2]), select(x % 2 == 0, gb[x / 2, y / 2], g_b[x / 2, y / 2]));
func blue i16 (x, y) = select(y % 2 == 0,
    select(x % 2 == 0, b_r[x / 2, y / 2], b_gr[x / 2, y / 2]), select(x % 2 == 0, b_gb[x / 2, y / 2], b[x / 2, y / 2]));

# The curve: the root of 16 times the light, digit by digit, so that 12 bits of light become 8 bits for the eye.
func digit i32 (k) = select(k < 4, select(k < 2, select(k == 0, 128, 64), select(k == 2, 32, 16)),
    select(k < 6, select(k == 4, 8, 4), select(k == 6, 2, 1)));
func curve i32 (light) = 0;
update curve over (k 0..7) [light] = curve[light]
    + select((curve[light] + digit[k]) * (curve[light] + digit[k]) <= 16 * light, digit[k], 0);

# The sensor's colours to the screen's by a matrix of 8 bits behind the point, and through the curve.
func screen_r i16 (x, y) = i16(curve[clamp(
    (i32(red[x, y]) * 330 - i32(green[x, y]) * 60 - i32(blue[x, y]) * 14) / 256, 0, 4095)]);
func screen_g i16 (x, y) = i16(curve[clamp(
    (i32(green[x, y]) * 320 - i32(red[x, y]) * 30 - i32(blue[x, y]) * 34) / 256, 0, 4095)]);
func screen_b i16 (x, y) = i16(curve[clamp(
    (i32(blue[x, y]) * 332 - i32(red[x, y]) * 6 - i32(green[x, y]) * 70) / 256, 0, 4095)]);

# Sharpening of the grey alone: what it has more than its surroundings is added to each colour.
func grey i16 (x, y) = i16((i32(screen_r[x, y]) * 77 + i32(screen_g[x, y]) * 150 + i32(screen_b[x, y]) * 29) / 256);
func across i16 (x, y) = grey[x - 1, y] + 2i16 * grey[x, y] + grey[x + 1, y];
func detail i16 (x, y) = (16i16 * grey[x, y] - across[x, y - 1] - 2i16 * across[x, y] - across[x, y + 1]) / 16i16;
func out u8 (x, y, c) = u8(clamp(
    select(c == 0, screen_r[x, y], select(c == 1, screen_g[x, y], screen_b[x, y])) + detail[x, y], 0i16, 255i16));
output out [@W@, @H@, 3];
