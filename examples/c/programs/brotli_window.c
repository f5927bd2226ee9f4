/* brotli: packs a text of words at random with the window that its own program takes, 4 MiB, unpacks it, and prints the sizes and sums. */
#include <stdio.h>
#include <stdlib.h>
#include <string.h>
#include "brotli/decode.h"
#include "brotli/encode.h"

enum { WORDS = 600, LONGEST = 12 };

static unsigned any(void) {
    static unsigned state = 2463534242u; /* Marsaglia's xorshift, 2003 */
    state ^= state << 13, state ^= state >> 17, state ^= state << 5;
    return state;
}

static void write_text(unsigned char *text, size_t size) {
    static char words[WORDS][LONGEST + 1];
    size_t at = 0;
    for (int word = 0; word < WORDS; word++)
        for (unsigned letter = 0, letters = 2 + any() % (LONGEST - 1); letter < letters; letter++)
            words[word][letter] = 'a' + any() % 26;
    while (at < size) {
        const char *word = words[any() % (1 + any() % WORDS)];
        for (; *word != 0 && at < size; word++)
            text[at++] = *word;
        if (at < size)
            text[at++] = any() % 11 ? ' ' : '\n';
    }
}

static int packed_and_back(int quality, const unsigned char *plain, size_t size) {
    size_t length = BrotliEncoderMaxCompressedSize(size), back = size;
    unsigned char *packed = malloc(length), *again = malloc(size);
    unsigned sum = 0;
    if (packed == NULL || again == NULL || !BrotliEncoderCompress(quality, BROTLI_DEFAULT_WINDOW, BROTLI_MODE_TEXT, size, plain, &length, packed))
        return 1;
    for (size_t byte = 0; byte < length; byte++)
        sum = sum * 31 + packed[byte];
    if (BrotliDecoderDecompress(length, packed, &back, again) != BROTLI_DECODER_RESULT_SUCCESS || back != size || memcmp(plain, again, size))
        return 2;
    printf("quality %d: %u of %u bytes, sum %08x\n", quality, (unsigned)length, (unsigned)size, sum);
    free(packed);
    free(again);
    return 0;
}

int main(void) {
    enum { LARGE = 1 << 19, SMALL = 1 << 14 };
    unsigned char *plain = malloc(LARGE);
    if (plain == NULL)
        return 3;
    write_text(plain, LARGE);
    return packed_and_back(5, plain, LARGE) || packed_and_back(9, plain, LARGE / 4) || packed_and_back(BROTLI_DEFAULT_QUALITY, plain, SMALL);
}
