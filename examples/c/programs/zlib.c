/* zlib: packs and unpacks 24,000 bytes at three levels, and prints the sizes and the sums. */
#include <stdio.h>
#include <string.h>
#include "zlib.h"

static unsigned char plain[24000], packed[25000], again[24000];

int main(void) {
    unsigned state = 1;
    for (unsigned i = 0; i < sizeof plain; i++) {
        state = state * 1103515245 + 12345;
        plain[i] = state >> 30 ? "the words of a text "[i % 20] : 'a' + (state >> 20) % 26;
    }
    for (int level = 1; level <= 9; level += 4) {
        uLongf size = sizeof packed, back = sizeof again;
        if (compress2(packed, &size, plain, sizeof plain, level) != Z_OK)
            return 1;
        if (uncompress(again, &back, packed, size) != Z_OK || back != sizeof plain || memcmp(plain, again, back))
            return 2;
        printf("level %d: %lu bytes, crc32 %08lx, adler32 %08lx\n", level, size, crc32(0, packed, size),
               adler32(1, packed, size));
    }
    return 0;
}
