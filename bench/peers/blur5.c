/* A blur by 1 4 6 4 1 along the rows and then along the columns. */
#include "image.h"

static inline uint16_t taps(unsigned a, unsigned b, unsigned c, unsigned d, unsigned e) { return a + e + 4 * (b + d) + 6 * c; }

int main(int argc, char **argv) {
    Image in = read_image(argv[argc - 2]);
    int w = in.width, h = in.height;
    uint16_t *across = malloc(2 * (size_t)w * h);
    uint8_t *out = malloc((size_t)w * h);
    for (int y = 0; y < h; y++) {
        const uint8_t *row = in.samples + (size_t)y * w;
        uint16_t *sums = across + (size_t)y * w;
        for (int x = 2; x + 2 < w; x++) sums[x] = taps(row[x - 2], row[x - 1], row[x], row[x + 1], row[x + 2]);
        for (int k = 0; k < 4; k++) {
            int x = k < 2 ? at_most(k, w - 1) : at_least(w - 4 + k, 0);
            sums[x] = taps(row[at_least(x - 2, 0)], row[at_least(x - 1, 0)], row[x], row[at_most(x + 1, w - 1)], row[at_most(x + 2, w - 1)]);
        }
    }
    for (int y = 0; y < h; y++) {
        const uint16_t *rows[5];
        for (int k = 0; k < 5; k++) rows[k] = across + (size_t)at_most(at_least(y + k - 2, 0), h - 1) * w;
        for (int x = 0; x < w; x++)
            out[(size_t)y * w + x] = (uint16_t)(taps(rows[0][x], rows[1][x], rows[2][x], rows[3][x], rows[4][x]) + 128) / 256;
    }
    write_image(argv[argc - 1], w, h, 1, 255, out);
}
