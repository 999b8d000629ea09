# The mean of a pixel and its neighbours to the left and to the right. Past an edge stands the pixel at the edge.
pipeline mean3;
input in u8 [4, 1];
func out u8 (x, y) = u8((u16(in[clamp(x - 1, 0, 3), y]) + u16(in[x, y]) + u16(in[clamp(x + 1, 0, 3), y])) / 3u16);
output out [4, 1];
