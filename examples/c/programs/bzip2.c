/* libbz2: packs standard input and unpacks it again, in both ways of unpacking. */
#include <stdio.h>
#include <stdlib.h>
#include <string.h>
#include "bzlib.h"

void bz_internal_error(int code) {
    printf("internal error %d\n", code);
    abort();
}

static char plain[40000], packed[41000], again[40000];
static unsigned size;

/* The packer's two arrays have words for a block of 100,000 bytes, and use those of the bytes that there are. In a sandbox
   not all have room. */
static void *take(void *unused, int count, int item) {
    size_t most = 4 * (sizeof plain + 5000), wanted = (size_t)count * item;
    (void)unused;
    return malloc(wanted < 390000 ? wanted : most);
}

static void give(void *unused, void *room) {
    (void)unused;
    free(room);
}

static unsigned pack(void) {
    bz_stream stream = {.bzalloc = take, .bzfree = give, .next_in = plain, .avail_in = size, .next_out = packed,
                        .avail_out = sizeof packed};
    if (BZ2_bzCompressInit(&stream, 1, 0, 0) != BZ_OK || BZ2_bzCompress(&stream, BZ_FINISH) != BZ_STREAM_END)
        exit(1);
    BZ2_bzCompressEnd(&stream);
    return stream.total_out_lo32;
}

static int comes_back(unsigned length, int is_small) {
    unsigned found = sizeof again;
    return BZ2_bzBuffToBuffDecompress(again, &found, packed, length, is_small, 0) == BZ_OK && found == size &&
           memcmp(plain, again, size) == 0;
}

int main(void) {
    unsigned sum = 0, length;
    size = fread(plain, 1, sizeof plain, stdin);
    length = pack();
    for (unsigned at = 0; at < length; at++)
        sum = sum * 31 + (unsigned char)packed[at];
    printf("%u bytes, %u packed, sum %08x\n", size, length, sum);
    printf("unpacked %d, with less memory %d\n", comes_back(length, 0), comes_back(length, 1));
    return 0;
}
