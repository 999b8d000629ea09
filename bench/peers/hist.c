/* How many samples have each value, at most 65535. */
#include "image.h"

int main(int argc, char **argv) {
    Image in = read_image(argv[argc - 2]);
    size_t count = (size_t)in.width * in.height;
    uint32_t h[256] = {0};
    uint8_t out[512];
    for (size_t k = 0; k < count; k++) h[in.samples[k]]++;
    for (int i = 0; i < 256; i++) {
        uint32_t number = h[i] < 65535 ? h[i] : 65535;
        out[2 * i] = number >> 8;
        out[2 * i + 1] = number & 255;
    }
    write_image(argv[argc - 1], 256, 1, 1, 65535, out);
}
