/* Writes the base64 (RFC 4648) of standard input, in lines of 76 characters. */
#include <stdint.h>
#include <stdio.h>

enum { LINE = 76 };

static const char letters[] = "ABCDEFGHIJKLMNOPQRSTUVWXYZabcdefghijklmnopqrstuvwxyz0123456789+/";

/* Reads at most three bytes into the high ones of 24 bits, and answers how many. */
static int read_group(uint32_t *bits) {
    int count = 0, byte;
    *bits = 0;
    while (count < 3 && (byte = getchar()) != EOF)
        *bits |= (uint32_t)byte << (16 - 8 * count++);
    return count;
}

static void write_group(uint32_t bits, int count) {
    for (int i = 0; i < 4; i++)
        putchar(i <= count ? letters[bits >> (18 - 6 * i) & 63] : '=');
}

int main(void) {
    uint32_t bits;
    int column = 0, count;
    while ((count = read_group(&bits)) > 0) {
        write_group(bits, count);
        column += 4;
        if (column == LINE) {
            putchar('\n');
            column = 0;
        }
    }
    if (column)
        putchar('\n');
}
