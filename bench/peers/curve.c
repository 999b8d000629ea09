/* A curve that lightens the middle of each channel. */
#include "image.h"

int main(int argc, char **argv) {
    Image in = read_image(argv[argc - 2]);
    size_t count = (size_t)in.width * in.height * in.channels;
    uint8_t *out = malloc(count);
    for (size_t k = 0; k < count; k++) out[k] = (uint16_t)(in.samples[k] * (510 - in.samples[k])) / 255;
    write_image(argv[argc - 1], in.width, in.height, in.channels, 255, out);
}
