# The mean of 15 by 15 pixels, of those that the picture has, by an integral image: four reads a pixel, however large the box is.
pipeline box;
input in u8 [@W@, @H@];

# The sum of all pixels up to a point, from the left in each row, and then from above. It is 0 before the first.
func along u32 (x, y) = 0u32;
update along over (rx 0..@W-1@) [rx, y] = along[rx - 1, y] + u32(in[rx, clamp(y, 0, @H-1@)]);
func total u32 (x, y) = 0u32;
update total over (ry 0..@H-1@) [x, ry] = total[x, ry - 1] + along[x, ry];

# The box's four corners.
func sum u32 (x, y) = total[min(x + 7, @W-1@), min(y + 7, @H-1@)] - total[max(x - 8, -1), min(y + 7, @H-1@)]
    - total[min(x + 7, @W-1@), max(y - 8, -1)] + total[max(x - 8, -1), max(y - 8, -1)];
func area i32 (x, y) = (min(x + 7, @W-1@) - max(x - 8, -1)) * (min(y + 7, @H-1@) - max(y - 8, -1));
func out u8 (x, y) = u8((sum[x, y] + u32(area[x, y] / 2)) / u32(area[x, y]));
output out [@W@, @H@];
