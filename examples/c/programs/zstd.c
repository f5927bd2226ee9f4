/* zstd: packs standard input at five levels and unpacks it, and prints the sizes and the sums. */
#include <stdio.h>
#include <string.h>
#include "zstd.h"

static unsigned char plain[24000], packed[25000], again[24000];

int main(void) {
    static const int levels[] = {-3, 1, 3, 5, 9};
    size_t size = fread(plain, 1, sizeof plain, stdin);
    for (unsigned at = 0; at < sizeof levels / sizeof *levels; at++) {
        unsigned sum = 0;
        size_t length = ZSTD_compress(packed, sizeof packed, plain, size, levels[at]);
        if (ZSTD_isError(length)) {
            printf("level %d: %s\n", levels[at], ZSTD_getErrorName(length));
            return 1;
        }
        for (size_t byte = 0; byte < length; byte++)
            sum = sum * 31 + packed[byte];
        if (ZSTD_decompress(again, sizeof again, packed, length) != size || memcmp(plain, again, size))
            return 2;
        printf("level %d: %u of %u bytes, sum %08x\n", levels[at], (unsigned)length, (unsigned)size, sum);
    }
    return 0;
}
