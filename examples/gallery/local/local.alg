# Local contrast over three levels of a pyramid: small differences are doubled, large ones and the whole picture's are held down.
pipeline local;
input in u8 [@W@, @H@];
func g0 i16 (x, y) = i16(in[clamp(x, 0, @W-1@), clamp(y, 0, @H-1@)]) * 16i16;

# The pyramid: each level has half the width and height of the one before, by the weights 1 3 3 1.
func across1 i16 (x, y) = (g0[2 * x - 1, y] + 3i16 * (g0[2 * x, y] + g0[2 * x + 1, y]) + g0[2 * x + 2, y]) / 8i16;
func g1 i16 (x, y) = (across1[x, 2 * y - 1] + 3i16 * (across1[x, 2 * y] + across1[x, 2 * y + 1]) + across1[x, 2 * y + 2]) / 8i16;
func across2 i16 (x, y) = (g1[2 * x - 1, y] + 3i16 * (g1[2 * x, y] + g1[2 * x + 1, y]) + g1[2 * x + 2, y]) / 8i16;
func g2 i16 (x, y) = (across2[x, 2 * y - 1] + 3i16 * (across2[x, 2 * y] + across2[x, 2 * y + 1]) + across2[x, 2 * y + 2]) / 8i16;
func across3 i16 (x, y) = (g2[2 * x - 1, y] + 3i16 * (g2[2 * x, y] + g2[2 * x + 1, y]) + g2[2 * x + 2, y]) / 8i16;
func g3 i16 (x, y) = (across3[x, 2 * y - 1] + 3i16 * (across3[x, 2 * y] + across3[x, 2 * y + 1]) + across3[x, 2 * y + 2]) / 8i16;

# Each level enlarged to the size of the one before: three parts of the nearest point, one of the next nearest.
func side1 i16 (x, y) = (3i16 * g1[x / 2, y] + g1[x / 2 - 1 + x % 2 * 2, y] + 2i16) / 4i16;
func up1 i16 (x, y) = (3i16 * side1[x, y / 2] + side1[x, y / 2 - 1 + y % 2 * 2] + 2i16) / 4i16;
func side2 i16 (x, y) = (3i16 * g2[x / 2, y] + g2[x / 2 - 1 + x % 2 * 2, y] + 2i16) / 4i16;
func up2 i16 (x, y) = (3i16 * side2[x, y / 2] + side2[x, y / 2 - 1 + y % 2 * 2] + 2i16) / 4i16;
func side3 i16 (x, y) = (3i16 * g3[x / 2, y] + g3[x / 2 - 1 + x % 2 * 2, y] + 2i16) / 4i16;
func up3 i16 (x, y) = (3i16 * side3[x, y / 2] + side3[x, y / 2 - 1 + y % 2 * 2] + 2i16) / 4i16;

# What each level has more than the enlarged next one, made larger.
func more0 i16 (x, y) = g0[x, y] - up1[x, y] + clamp(g0[x, y] - up1[x, y], -160i16, 160i16);
func more1 i16 (x, y) = g1[x, y] - up2[x, y] + clamp(g1[x, y] - up2[x, y], -240i16, 240i16);
func more2 i16 (x, y) = g2[x, y] - up3[x, y] + clamp(g2[x, y] - up3[x, y], -240i16, 240i16);

# Put together again, from the coarsest level, whose contrast is three quarters of what it was.
func base i16 (x, y) = (3i16 * g3[x, y] + 2048i16) / 4i16;
func aside2 i16 (x, y) = (3i16 * base[x / 2, y] + base[x / 2 - 1 + x % 2 * 2, y] + 2i16) / 4i16;
func o2 i16 (x, y) = (3i16 * aside2[x, y / 2] + aside2[x, y / 2 - 1 + y % 2 * 2] + 2i16) / 4i16 + more2[x, y];
func aside1 i16 (x, y) = (3i16 * o2[x / 2, y] + o2[x / 2 - 1 + x % 2 * 2, y] + 2i16) / 4i16;
func o1 i16 (x, y) = (3i16 * aside1[x, y / 2] + aside1[x, y / 2 - 1 + y % 2 * 2] + 2i16) / 4i16 + more1[x, y];
func aside0 i16 (x, y) = (3i16 * o1[x / 2, y] + o1[x / 2 - 1 + x % 2 * 2, y] + 2i16) / 4i16;
func o0 i16 (x, y) = (3i16 * aside0[x, y / 2] + aside0[x, y / 2 - 1 + y % 2 * 2] + 2i16) / 4i16 + more0[x, y];
func out u8 (x, y) = u8(clamp((o0[x, y] + 8i16) / 16i16, 0i16, 255i16));
output out [@W@, @H@];
