# Minima and maxima of neighbours, read by two functions.
pipeline med;
input in u8 [9, 7];
func a u8 (x, y) = min(in[clamp(x - 1, 0, 8), clamp(y, 0, 6)], in[clamp(x + 1, 0, 8), clamp(y, 0, 6)]);
func b u8 (x, y) = max(a[x, y], a[x, y + 1]);
func out u8 (x, y) = min(a[clamp(x, 0, 8), clamp(y, 0, 6)], b[clamp(x - 1, 0, 8), clamp(y, 0, 6)]);
output out [9, 7];
