/*
 * Checks the image on standard input in pieces, without keeping its bytes:
 *
 *     feed [SIZE] < IMAGE        # the image's own bytes, SIZE at a time: 1 to 65536, 4096 if absent
 *
 * It ends in the verdict's status; or in 5 where the image can't be read, 6 where SIZE is no number from 1 to 65536.
 */
#include "verdict.h"

int main(int argc, char **argv) {
    uint8_t piece[65536];
    long size = argc > 1 ? number_of(argv[1], 1, sizeof piece) : 4096;
    if (size < 0)
        return 6;
    struct sfi_stream stream;
    sfi_c_begin(&stream);
    for (size_t length; (length = fread(piece, 1, (size_t)size, stdin)) > 0;)
        sfi_c_feed(&stream, piece, length);
    if (ferror(stdin))
        return 5;
    struct sfi_verdict verdict;
    sfi_c_end(&stream, &verdict);
    print_verdict(&verdict);
    putchar('\n');
    return (int)verdict.status;
}
