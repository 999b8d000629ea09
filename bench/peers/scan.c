/* The mean of the samples of a row up to each place. */
#include "image.h"

int main(int argc, char **argv) {
    Image in = read_image(argv[argc - 2]);
    int w = in.width, h = in.height;
    uint8_t *out = malloc((size_t)w * h);
    uint32_t *sums = malloc(4 * (size_t)w);
    for (int y = 0; y < h; y++) {
        const uint8_t *row = in.samples + (size_t)y * w;
        sums[0] = row[0];
        for (int x = 1; x < w; x++) sums[x] = sums[x - 1] + row[x];
        for (int x = 0; x < w; x++) out[(size_t)y * w + x] = sums[x] / (uint32_t)(x + 1);
    }
    write_image(argv[argc - 1], w, h, 1, 255, out);
}
