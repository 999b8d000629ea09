# Both arms of a choice read across the diagonal.
pipeline sel;
input in u8 [9, 9];
func g u8 (x, y) = max(in[clamp(x, 0, 8), clamp(y, 0, 8)], in[clamp(x, 0, 8), clamp(y + 1, 0, 8)]);
func out u8 (x, y) = select(x < y, g[x, y], g[y, x]);
output out [9, 9];
