# Twice one more than each of ten pixels.
pipeline doubled;
input in u8 [10];
func f u8 (x) = in[x] + 1u8;
func out u8 (x) = f[x] + f[x];
output out [10];
