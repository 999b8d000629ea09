/* Binary PGM and PPM files of 8 or 16 bits, as the peers of the bench read and write them. */
#include <stdint.h>
#include <stdio.h>
#include <stdlib.h>

typedef struct {
    int width, height, channels;
    uint8_t *samples;
} Image;

static Image read_image(const char *path) {
    Image image = {0, 0, 1, NULL};
    FILE *file = fopen(path, "rb");
    char kind;
    int greatest;
    if (!file || fscanf(file, "P%c %d %d %d", &kind, &image.width, &image.height, &greatest) != 4 || greatest != 255) exit(3);
    fgetc(file);
    image.channels = kind == '6' ? 3 : 1;
    size_t count = (size_t)image.width * image.height * image.channels;
    image.samples = malloc(count);
    if (!image.samples || fread(image.samples, 1, count, file) != count) exit(3);
    fclose(file);
    return image;
}

static void write_image(const char *path, int width, int height, int channels, int greatest, const uint8_t *bytes) {
    FILE *file = fopen(path, "wb");
    size_t count = (size_t)width * height * channels * (greatest > 255 ? 2 : 1);
    if (!file || fprintf(file, "P%c\n%d %d\n%d\n", channels == 3 ? '6' : '5', width, height, greatest) < 0) exit(5);
    if (fwrite(bytes, 1, count, file) != count || fclose(file)) exit(5);
}

static inline int at_most(int a, int b) { return a < b ? a : b; }
static inline int at_least(int a, int b) { return a > b ? a : b; }
