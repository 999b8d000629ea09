# Lens shading of a raw mosaic: a mesh of gains, a point for each 16 pixels and each place of the mosaic, evens out the light.
pipeline shading;
input in u16 [@W@, @H@];

# The square of the distance from the middle, in 256ths of that of a corner, and the gain, with 8 bits behind the point.
func far i32 (i, j) = ((32 * i - @W@) * (32 * i - @W@) * 256 / @W*W@ + (32 * j - @H@) * (32 * j - @H@) * 256 / @H*H@) / 2;
func mesh u32 (i, j, c) = u32(256 + far[i, j] * select(c == 0, 118, select(c == 3, 104, 110)) / 256
    + far[i, j] * far[i, j] * 83 / 65536);

# The gain of a pixel between four points of the mesh.
func upper u32 (x, y) = mesh[x / 16, y / 16, x % 2 + 2 * (y % 2)] * u32(16 - x % 16)
    + mesh[x / 16 + 1, y / 16, x % 2 + 2 * (y % 2)] * u32(x % 16);
func lower u32 (x, y) = mesh[x / 16, y / 16 + 1, x % 2 + 2 * (y % 2)] * u32(16 - x % 16)
    + mesh[x / 16 + 1, y / 16 + 1, x % 2 + 2 * (y % 2)] * u32(x % 16);
func gain u32 (x, y) = (upper[x, y] * u32(16 - y % 16) + lower[x, y] * u32(y % 16) + 128u32) / 256u32;
func out u16 (x, y) = u16(min(u32(max(in[x, y], 64u16) - 64u16) * gain[x, y] / 256u32 + 64u32, 4095u32));
output out [@W@, @H@];
