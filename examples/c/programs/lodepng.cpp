// lodepng: writes a picture as a PNG in three kinds of colour, reads it again, and prints the sizes and the sums.
#include <cstdio>
#include <cstdlib>
#include "lodepng.h"

static const unsigned WIDTH = 48, HEIGHT = 40;
static unsigned char picture[4 * WIDTH * HEIGHT];

static unsigned sum_of(const unsigned char *bytes, std::size_t size) {
    unsigned sum = 0;
    for (std::size_t at = 0; at < size; at++)
        sum = sum * 31 + bytes[at];
    return sum;
}

static unsigned try_colour(const char *name, LodePNGColorType colour, unsigned channels) {
    unsigned char *packed = nullptr, *again = nullptr;
    std::size_t size = 0;
    unsigned width = 0, height = 0;
    unsigned failed = lodepng_encode_memory(&packed, &size, picture, WIDTH, HEIGHT, colour, 8);
    if (!failed)
        failed = lodepng_decode_memory(&again, &width, &height, packed, size, colour, 8);
    if (failed)
        std::printf("%s: %s\n", name, lodepng_error_text(failed));
    else
        std::printf("%s: %ux%u, %u bytes, sum %08x, read again %08x\n", name, width, height, static_cast<unsigned>(size),
                    sum_of(packed, size), sum_of(again, channels * width * height));
    std::free(packed);
    std::free(again);
    return failed;
}

int main() {
    for (unsigned at = 0; at < sizeof picture; at++)
        picture[at] = static_cast<unsigned char>(at % 4 == 3 ? 255 : (at / 16 * 7) ^ (at % 4 * 64) ^ (at / (4 * WIDTH)));
    unsigned failed = try_colour("rgba", LCT_RGBA, 4) | try_colour("rgb", LCT_RGB, 3) | try_colour("grey", LCT_GREY, 1);
    const unsigned char nothing[] = "\x89PNG\r\n\x1a\n and no more";
    unsigned char *again = nullptr;
    unsigned width, height;
    std::printf("%s\n", lodepng_error_text(lodepng_decode32(&again, &width, &height, nothing, sizeof nothing)));
    return failed != 0;
}
