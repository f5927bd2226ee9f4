/* A picture of 640x480 points: written as a PNG by stb_image_write and read by stb_image, then so as a JPEG; prints sizes and sums. */
#include <stdio.h>
#include <stdlib.h>
#include <string.h>
#define STBI_NO_STDIO
#define STBI_NO_THREAD_LOCALS
#define STBI_WRITE_NO_STDIO
#define STB_IMAGE_IMPLEMENTATION
#define STB_IMAGE_WRITE_IMPLEMENTATION
#include "stb_image.h"
#include "stb_image_write.h"

enum { WIDTH = 640, HEIGHT = 480, ROOM = 1 << 20 };

struct file {
    unsigned char *bytes;
    int size;
};

static unsigned sum_of(const unsigned char *bytes, int size) {
    unsigned sum = 0;
    for (int at = 0; at < size; at++)
        sum = sum * 31 + bytes[at];
    return sum;
}

static void add(void *context, void *bytes, int size) {
    struct file *file = context;
    if (size <= ROOM - file->size)
        memcpy(file->bytes + file->size, bytes, size);
    file->size += size;
}

static unsigned char *read_again(const char *name, struct file *file) {
    int width = 0, height = 0, channels = 0;
    unsigned char *picture = file->size <= ROOM ? stbi_load_from_memory(file->bytes, file->size, &width, &height, &channels, 3) : NULL;
    if (picture == NULL)
        printf("%s: %d bytes: %s\n", name, file->size, file->size <= ROOM ? stbi_failure_reason() : "too many");
    else
        printf("%s: %d bytes, sum %08x, %dx%d of %d, sum %08x\n", name, file->size, sum_of(file->bytes, file->size), width, height, channels,
               sum_of(picture, 3 * width * height));
    file->size = 0;
    return picture;
}

int main(void) {
    unsigned char *picture = malloc(3 * WIDTH * HEIGHT), *again;
    struct file file = {malloc(ROOM), 0};
    if (picture == NULL || file.bytes == NULL)
        return 1;
    for (int y = 0; y < HEIGHT; y++)
        for (int x = 0; x < WIDTH; x++)
            for (int c = 0; c < 3; c++)
                picture[3 * (y * WIDTH + x) + c] = (unsigned char)((x * (c + 1) + y * (3 - c)) / 8 ^ (x * y / 512 & 31));
    if (!stbi_write_png_to_func(add, &file, WIDTH, HEIGHT, 3, picture, 3 * WIDTH) || (again = read_again("png", &file)) == NULL)
        return 2;
    if (memcmp(picture, again, 3 * WIDTH * HEIGHT))
        return 3;
    stbi_image_free(again);
    if (!stbi_write_jpg_to_func(add, &file, WIDTH, HEIGHT, 3, picture, 90) || (again = read_again("jpeg", &file)) == NULL)
        return 4;
    stbi_image_free(again);
    return 0;
}
