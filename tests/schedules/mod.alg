# Remainders as coordinates.
pipeline mod;
input in u8 [8, 6];
func f u8 (x, y) = in[x % 8, y % 6];
func out u8 (x, y) = f[x + 1, y] + f[x, y + 1];
output out [8, 6];
