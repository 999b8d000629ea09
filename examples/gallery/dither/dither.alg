# Error diffusion by Floyd and Steinberg: four greys, and what each pixel lacks goes to the pixels that come after it.
pipeline dither;
input in u8 [@W@, @H@];

# What is left of a pixel's wish when the nearest of the greys 0, 85, 170 and 255 is taken from it: from -42 to 42. Its wish is its
# own value and sixteenths of what four earlier pixels lack. Off the picture nothing is lacking.
func lack i16 (x, y) = 0i16;
update lack over (rx 0..@W-1@, ry 0..@H-1@) [rx, ry] = (i16(in[rx, ry]) + (7i16 * lack[rx - 1, ry] + lack[rx - 1, ry - 1]
    + 5i16 * lack[rx, ry - 1] + 3i16 * lack[rx + 1, ry - 1] + 8i16) / 16i16 + 42i16) % 85i16 - 42i16;
func out u8 (x, y) = u8(i16(in[x, y]) + (7i16 * lack[x - 1, y] + lack[x - 1, y - 1]
    + 5i16 * lack[x, y - 1] + 3i16 * lack[x + 1, y - 1] + 8i16) / 16i16 - lack[x, y]);
output out [@W@, @H@];
