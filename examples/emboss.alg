# Grey, lighter where the picture gets lighter to the right and below. Past an edge stands the pixel at the edge.
pipeline emboss;
input in u8 [16, 12];
func before i16 (x, y) = i16(in[clamp(x - 1, 0, 15), clamp(y - 1, 0, 11)]);
func after i16 (x, y) = i16(in[clamp(x + 1, 0, 15), clamp(y + 1, 0, 11)]);
func out u8 (x, y) = u8(clamp(after[x, y] - before[x, y] + 128i16, 0i16, 255i16));
output out [16, 12];
