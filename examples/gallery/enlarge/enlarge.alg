# Eight parts for five: enlarged by cubic interpolation, with coordinates of 8 bits behind the point.
pipeline enlarge;
input in u8 [@W@, @H@];
func p i32 (x, y) = i32(in[clamp(x, 0, @W-1@), clamp(y, 0, @H-1@)]);

# Catmull and Rom's weights, in 256ths, of the points 1 to the left and 1 and 2 to the right of a place t / 256; 0 is the rest.
func left i32 (t) = (2 * t * t / 256 - t - t * t * t / 65536) / 2;
func right i32 (t) = (t + 4 * t * t / 256 - 3 * t * t * t / 65536) / 2;
func far i32 (t) = (t * t * t / 65536 - t * t / 256) / 2;
func here i32 (t) = 256 - left[t] - right[t] - far[t];

# The middle of pixel x is at (x + 1/2) * 5/8 - 1/2, in 256ths: 160 * x - 48.
func across i16 (x, y) = i16((left[(160 * x - 48) % 256] * p[(160 * x - 48) / 256 - 1, y]
    + here[(160 * x - 48) % 256] * p[(160 * x - 48) / 256, y]
    + right[(160 * x - 48) % 256] * p[(160 * x - 48) / 256 + 1, y]
    + far[(160 * x - 48) % 256] * p[(160 * x - 48) / 256 + 2, y] + 8) / 16);
func out u8 (x, y) = u8(clamp((left[(160 * y - 48) % 256] * i32(across[x, (160 * y - 48) / 256 - 1])
    + here[(160 * y - 48) % 256] * i32(across[x, (160 * y - 48) / 256])
    + right[(160 * y - 48) % 256] * i32(across[x, (160 * y - 48) / 256 + 1])
    + far[(160 * y - 48) % 256] * i32(across[x, (160 * y - 48) / 256 + 2]) + 2048) / 4096, 0, 255));
output out [@max(W*8/5,1)@, @max(H*8/5,1)@];
