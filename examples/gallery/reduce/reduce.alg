# Two parts for five: reduced with a triangle as wide as two new pixels, with coordinates of 8 bits behind the point.
pipeline reduce;
input in u8 [@W@, @H@];
func p i32 (x, y) = i32(in[clamp(x, 0, @W-1@), clamp(y, 0, @H-1@)]);

# The weight of the tap k - 2 pixels away from the pixel before a place t / 256, and the sum of the six.
func weight i32 (k, t) = max(640 - max(256 * (k - 2) - t, t - 256 * (k - 2)), 0);
func total i32 (t) = weight[0, t] + weight[1, t] + weight[2, t] + weight[3, t] + weight[4, t] + weight[5, t];

# The middle of pixel x is at (x + 1/2) * 5/2 - 1/2, in 256ths: 640 * x + 192. Sums are kept with 4 bits behind the point.
func across i32 (x, y) = 0;
update across over (k 0..5) [x, y] = across[x, y] + weight[k, (640 * x + 192) % 256] * p[(640 * x + 192) / 256 - 2 + k, y];
func row i16 (x, y) = i16(across[x, y] * 16 / total[(640 * x + 192) % 256]);
func down i32 (x, y) = 0;
update down over (k 0..5) [x, y] = down[x, y] + weight[k, (640 * y + 192) % 256] * i32(row[x, (640 * y + 192) / 256 - 2 + k]);
func out u8 (x, y) = u8((down[x, y] / total[(640 * y + 192) % 256] + 8) / 16);
output out [@max(W*2/5,1)@, @max(H*2/5,1)@];
