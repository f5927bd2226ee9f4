/*
 * Reads an image, moves a sandbox of it, writes the image, and ends in what sfi_c_move returned. Its words are the sandbox's
 * number, and where its code and its data are to begin, in hexadecimal.
 */
#include "sfi.h"
#include <stdio.h>
#include <stdlib.h>

enum { MOST_LENGTH = 1 << 20, BAD_WORDS = 6 };

static uint8_t image[MOST_LENGTH];

static uint32_t number_of(const char *word) {
    return (uint32_t)strtoul(word, NULL, 16);
}

int main(int argc, char **argv) {
    if (argc != 4)
        return BAD_WORDS;
    size_t length = fread(image, 1, sizeof image, stdin);
    uint32_t status = sfi_c_move(image, length, number_of(argv[1]), number_of(argv[2]), number_of(argv[3]));
    fwrite(image, 1, length, stdout);
    return (int)status;
}
