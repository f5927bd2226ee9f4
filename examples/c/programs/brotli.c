/* brotli: packs standard input at four qualities, the one with the most memory first, and unpacks it, and prints the sizes and the sums. */
#include <stdio.h>
#include <string.h>
#include "brotli/decode.h"
#include "brotli/encode.h"

enum { WINDOW = 16 };

static unsigned char plain[2500], packed[2600], again[2500];

int main(void) {
    static const int qualities[] = {5, 3, 1, 0};
    size_t size = fread(plain, 1, sizeof plain, stdin);
    for (unsigned at = 0; at < sizeof qualities / sizeof *qualities; at++) {
        unsigned sum = 0;
        size_t length = sizeof packed, back = sizeof again;
        if (!BrotliEncoderCompress(qualities[at], WINDOW, BROTLI_MODE_TEXT, size, plain, &length, packed))
            return 1;
        for (size_t byte = 0; byte < length; byte++)
            sum = sum * 31 + packed[byte];
        if (BrotliDecoderDecompress(length, packed, &back, again) != BROTLI_DECODER_RESULT_SUCCESS || back != size ||
            memcmp(plain, again, size))
            return 2;
        printf("quality %d: %u of %u bytes, sum %08x\n", qualities[at], (unsigned)length, (unsigned)size, sum);
    }
    return 0;
}
