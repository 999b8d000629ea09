# The mean of a pixel and its eight neighbours: first the sums along the rows, then those along the columns.
# Past an edge stands the pixel at the edge.
pipeline blur3;
input in u8 [16, 12];
func across u16 (x, y) = u16(in[clamp(x - 1, 0, 15), y]) + u16(in[x, y]) + u16(in[clamp(x + 1, 0, 15), y]);
func out u8 (x, y) = u8((across[x, clamp(y - 1, 0, 11)] + across[x, y] + across[x, clamp(y + 1, 0, 11)]) / 9u16);
output out [16, 12];
