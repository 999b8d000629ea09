# Canny's edges: blurred, sloped, thinned to ridges, and weak ridges kept where they touch strong ones.
pipeline canny;
input in u8 [@W@, @H@];
func p u16 (x, y) = u16(in[clamp(x, 0, @W-1@), clamp(y, 0, @H-1@)]);

# The blur of 5 by 5 by the weights 1 4 6 4 1.
func across u16 (x, y) = p[x - 2, y] + p[x + 2, y] + 4u16 * (p[x - 1, y] + p[x + 1, y]) + 6u16 * p[x, y];
func soft i16 (x, y) = i16((across[x, y - 2] + across[x, y + 2] + 4u16 * (across[x, y - 1] + across[x, y + 1])
    + 6u16 * across[x, y] + 128u16) / 256u16);

# Slopes by Sobel's masks, and their size.
func gx i16 (x, y) = soft[x + 1, y - 1] - soft[x - 1, y - 1] + 2i16 * (soft[x + 1, y] - soft[x - 1, y])
    + soft[x + 1, y + 1] - soft[x - 1, y + 1];
func gy i16 (x, y) = soft[x - 1, y + 1] - soft[x - 1, y - 1] + 2i16 * (soft[x, y + 1] - soft[x, y - 1])
    + soft[x + 1, y + 1] - soft[x + 1, y - 1];
func size i16 (x, y) = max(gx[x, y], -gx[x, y]) + max(gy[x, y], -gy[x, y]);

# The direction of the slope: 0 across, 1 down, 2 down to the right, 3 down to the left.
func direction u8 (x, y) = select(5i16 * max(gy[x, y], -gy[x, y]) <= 2i16 * max(gx[x, y], -gx[x, y]), 0u8,
    select(5i16 * max(gx[x, y], -gx[x, y]) <= 2i16 * max(gy[x, y], -gy[x, y]), 1u8,
    select(any(all(gx[x, y] > 0i16, gy[x, y] > 0i16), all(gx[x, y] < 0i16, gy[x, y] < 0i16)), 2u8, 3u8)));
func before i16 (x, y) = select(direction[x, y] == 0u8, size[x - 1, y], select(direction[x, y] == 1u8, size[x, y - 1],
    select(direction[x, y] == 2u8, size[x - 1, y - 1], size[x + 1, y - 1])));
func after i16 (x, y) = select(direction[x, y] == 0u8, size[x + 1, y], select(direction[x, y] == 1u8, size[x, y + 1],
    select(direction[x, y] == 2u8, size[x + 1, y + 1], size[x - 1, y + 1])));

# Ridges: 2 is strong, 1 is weak, 0 is none. A weak one that touches a strong one becomes strong, twice.
func ridge u8 (x, y) = select(all(size[x, y] > before[x, y], size[x, y] >= after[x, y]),
    select(size[x, y] >= 140i16, 2u8, select(size[x, y] >= 50i16, 1u8, 0u8)), 0u8);
func wide1 u8 (x, y) = max(max(ridge[x - 1, y], ridge[x + 1, y]), ridge[x, y]);
func grown1 u8 (x, y) = select(all(ridge[x, y] == 1u8, max(max(wide1[x, y - 1], wide1[x, y + 1]), wide1[x, y]) == 2u8),
    2u8, ridge[x, y]);
func wide2 u8 (x, y) = max(max(grown1[x - 1, y], grown1[x + 1, y]), grown1[x, y]);
func grown2 u8 (x, y) = select(all(grown1[x, y] == 1u8, max(max(wide2[x, y - 1], wide2[x, y + 1]), wide2[x, y]) == 2u8),
    2u8, grown1[x, y]);
func out u8 (x, y) = select(grown2[x, y] == 2u8, 255u8, 0u8);
output out [@W@, @H@];
