/* The least that a check of hexadecimal text does: one pass over the same bytes. It reads standard input, decodes the digits,
   and cuts the bytes into instructions by their first halfwords. It prints how many bytes and instructions it met. */
#include <stdint.h>
#include <stdio.h>
#include <stdlib.h>

static int digit_value(int c) {
    if (c >= '0' && c <= '9') return c - '0';
    if (c >= 'a' && c <= 'f') return c - 'a' + 10;
    if (c >= 'A' && c <= 'F') return c - 'A' + 10;
    return -1;
}

int main(void) {
    static uint8_t piece[65536];
    size_t capacity = 1 << 20, count = 0, read;
    uint8_t *bytes = malloc(capacity);
    int high = -1;
    while ((read = fread(piece, 1, sizeof piece, stdin)) > 0) {
        for (size_t k = 0; k < read; k++) {
            int value = digit_value(piece[k]);
            if (value < 0) continue;
            if (high < 0) { high = value; continue; }
            if (count == capacity && !(bytes = realloc(bytes, capacity *= 2))) return 1;
            bytes[count++] = (uint8_t)(high << 4 | value);
            high = -1;
        }
    }
    size_t instructions = 0, at = 0;
    while (at + 2 <= count) {
        unsigned first = bytes[at] | bytes[at + 1] << 8;
        at += (first & 3) == 3 ? 4 : 2;
        instructions++;
    }
    printf("bytes=%zu instructions=%zu\n", count, instructions);
    free(bytes);
    return 0;
}
