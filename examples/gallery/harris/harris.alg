# Corners by Harris and Stephens: where the picture changes in two directions at once. They are marked white on the darkened picture.
pipeline harris;
input in u8 [@W@, @H@];
func p i16 (x, y) = i16(in[clamp(x, 0, @W-1@), clamp(y, 0, @H-1@)]);

# Slopes by Sobel's masks, an eighth of them: from -128 to 127.
func ix i16 (x, y) = (p[x + 1, y - 1] - p[x - 1, y - 1] + 2i16 * (p[x + 1, y] - p[x - 1, y])
    + p[x + 1, y + 1] - p[x - 1, y + 1]) / 8i16;
func iy i16 (x, y) = (p[x - 1, y + 1] - p[x - 1, y - 1] + 2i16 * (p[x, y + 1] - p[x, y - 1])
    + p[x + 1, y + 1] - p[x + 1, y - 1]) / 8i16;
func ixx i16 (x, y) = ix[x, y] * ix[x, y];
func iyy i16 (x, y) = iy[x, y] * iy[x, y];
func ixy i16 (x, y) = ix[x, y] * iy[x, y];

# Their products over a window of 3 by 3, a sixteenth of the sums.
func sxx i32 (x, y) = (i32(ixx[x - 1, y - 1]) + i32(ixx[x, y - 1]) + i32(ixx[x + 1, y - 1])
    + i32(ixx[x - 1, y]) + i32(ixx[x, y]) + i32(ixx[x + 1, y])
    + i32(ixx[x - 1, y + 1]) + i32(ixx[x, y + 1]) + i32(ixx[x + 1, y + 1])) / 16;
func syy i32 (x, y) = (i32(iyy[x - 1, y - 1]) + i32(iyy[x, y - 1]) + i32(iyy[x + 1, y - 1])
    + i32(iyy[x - 1, y]) + i32(iyy[x, y]) + i32(iyy[x + 1, y])
    + i32(iyy[x - 1, y + 1]) + i32(iyy[x, y + 1]) + i32(iyy[x + 1, y + 1])) / 16;
func sxy i32 (x, y) = (i32(ixy[x - 1, y - 1]) + i32(ixy[x, y - 1]) + i32(ixy[x + 1, y - 1])
    + i32(ixy[x - 1, y]) + i32(ixy[x, y]) + i32(ixy[x + 1, y])
    + i32(ixy[x - 1, y + 1]) + i32(ixy[x, y + 1]) + i32(ixy[x + 1, y + 1])) / 16;

# The determinant less a part of the square of the trace, and the places where it is large and no neighbour's is larger.
func response i32 (x, y) = sxx[x, y] * syy[x, y] - sxy[x, y] * sxy[x, y]
    - (sxx[x, y] + syy[x, y]) * (sxx[x, y] + syy[x, y]) / 24;
func around i32 (x, y) = max(
    max(max(response[x - 1, y - 1], response[x, y - 1]), max(response[x + 1, y - 1], response[x - 1, y])),
    max(max(response[x + 1, y], response[x - 1, y + 1]), max(response[x, y + 1], response[x + 1, y + 1])));
func corner u8 (x, y) = select(all(response[x, y] > 60000, response[x, y] >= around[x, y]), 255u8, 0u8);
func out u8 (x, y) = max(u8(p[x, y] / 2i16),
    max(max(corner[x, y], max(corner[x - 1, y], corner[x + 1, y])), max(corner[x, y - 1], corner[x, y + 1])));
output out [@W@, @H@];
