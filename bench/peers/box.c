/* The mean of a sample and its eight neighbours. */
#include "image.h"

int main(int argc, char **argv) {
    Image in = read_image(argv[argc - 2]);
    int w = in.width, h = in.height;
    uint16_t *across = malloc(2 * (size_t)w * h);
    uint8_t *out = malloc((size_t)w * h);
    for (int y = 0; y < h; y++) {
        const uint8_t *row = in.samples + (size_t)y * w;
        uint16_t *sums = across + (size_t)y * w;
        for (int x = 1; x + 1 < w; x++) sums[x] = row[x - 1] + row[x] + row[x + 1];
        sums[0] = row[0] + row[0] + row[at_most(1, w - 1)];
        sums[w - 1] = row[at_least(w - 2, 0)] + row[w - 1] + row[w - 1];
    }
    for (int y = 0; y < h; y++) {
        const uint16_t *above = across + (size_t)at_least(y - 1, 0) * w, *here = across + (size_t)y * w;
        const uint16_t *below = across + (size_t)at_most(y + 1, h - 1) * w;
        for (int x = 0; x < w; x++) out[(size_t)y * w + x] = (uint16_t)(above[x] + here[x] + below[x]) / 9;
    }
    write_image(argv[argc - 1], w, h, 1, 255, out);
}
