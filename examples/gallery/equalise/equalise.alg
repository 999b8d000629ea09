# Histogram equalisation: each value becomes the part of the pixels that are not brighter.
pipeline equalise;
input in u8 [@W@, @H@];

# Four histograms, each of every fourth row, so that four workers can count, and their sum. A row past the end counts nothing.
func quarter0 u32 (v) = 0u32;
update quarter0 over (rx 0..@W-1@, ry 0..@(H+3)/4-1@) [i32(in[rx, min(4 * ry, @H-1@)])] =
    quarter0[i32(in[rx, min(4 * ry, @H-1@)])] + select(4 * ry < @H@, 1u32, 0u32);
func quarter1 u32 (v) = 0u32;
update quarter1 over (rx 0..@W-1@, ry 0..@(H+3)/4-1@) [i32(in[rx, min(4 * ry + 1, @H-1@)])] =
    quarter1[i32(in[rx, min(4 * ry + 1, @H-1@)])] + select(4 * ry + 1 < @H@, 1u32, 0u32);
func quarter2 u32 (v) = 0u32;
update quarter2 over (rx 0..@W-1@, ry 0..@(H+3)/4-1@) [i32(in[rx, min(4 * ry + 2, @H-1@)])] =
    quarter2[i32(in[rx, min(4 * ry + 2, @H-1@)])] + select(4 * ry + 2 < @H@, 1u32, 0u32);
func quarter3 u32 (v) = 0u32;
update quarter3 over (rx 0..@W-1@, ry 0..@(H+3)/4-1@) [i32(in[rx, min(4 * ry + 3, @H-1@)])] =
    quarter3[i32(in[rx, min(4 * ry + 3, @H-1@)])] + select(4 * ry + 3 < @H@, 1u32, 0u32);
func counts u32 (v) = quarter0[v] + quarter1[v] + quarter2[v] + quarter3[v];

# How many pixels have a value of at most v, and the new values.
func below u32 (v) = counts[v];
update below over (rv 1..255) [rv] = below[rv] + below[rv - 1];
func table u8 (v) = u8(below[v] * 255u32 / @W*H@u32);
func out u8 (x, y) = table[i32(in[x, y])];
output out [@W@, @H@];
