/* Twice the picture less its blur by 1 2 1 along rows and columns, kept from 0 to 255. */
#include "image.h"

int main(int argc, char **argv) {
    Image in = read_image(argv[argc - 2]);
    int w = in.width, h = in.height;
    uint16_t *across = malloc(2 * (size_t)w * h);
    uint8_t *out = malloc((size_t)w * h);
    for (int y = 0; y < h; y++) {
        const uint8_t *row = in.samples + (size_t)y * w;
        uint16_t *sums = across + (size_t)y * w;
        for (int x = 1; x + 1 < w; x++) sums[x] = row[x - 1] + 2 * row[x] + row[x + 1];
        sums[0] = 3 * row[0] + row[at_most(1, w - 1)];
        sums[w - 1] = row[at_least(w - 2, 0)] + 3 * row[w - 1];
    }
    for (int y = 0; y < h; y++) {
        const uint16_t *above = across + (size_t)at_least(y - 1, 0) * w, *here = across + (size_t)y * w;
        const uint16_t *below = across + (size_t)at_most(y + 1, h - 1) * w;
        const uint8_t *row = in.samples + (size_t)y * w;
        for (int x = 0; x < w; x++) {
            int16_t sharp = 2 * row[x] - (int16_t)((uint16_t)(above[x] + 2 * here[x] + below[x] + 8) / 16);
            out[(size_t)y * w + x] = sharp < 0 ? 0 : sharp > 255 ? 255 : sharp;
        }
    }
    write_image(argv[argc - 1], w, h, 1, 255, out);
}
