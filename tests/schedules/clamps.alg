# A chain in which each step is read at clamped and at shifted indices, the first one twice.
pipeline clamps;
input in u8 [13, 9];
func f u8 (x, y) = in[clamp(x - 1, 0, 12), clamp(y + 1, 0, 8)];
func g u8 (x, y) = max(f[clamp(x + 1, 1, 9), y], f[x - 2, clamp(y, 0, 6)]);
func h u8 (x, y) = max(g[clamp(x, 0, 7), clamp(y + 2, -1, 6)], f[clamp(x - 1, 0, 5), y]);
func out u8 (x, y) = max(h[x + 3, clamp(y - 1, 1, 5)], h[clamp(x, 2, 8), y]);
output out [11, 7];
