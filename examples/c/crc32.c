/* Prints the CRC-32 of its input (ISO-HDLC, as in gzip and Ethernet) in hexadecimal. Exits with how many chunks it read. */
#include "gates.h"

enum { CHUNK = 4096, POLYNOMIAL = 0xedb88320 };

static unsigned table[256];
static unsigned char chunk[CHUNK];

static void make_table(void) {
    for (unsigned byte = 0; byte < 256; byte++) {
        unsigned remainder = byte;
        for (int bit = 0; bit < 8; bit++)
            remainder = remainder >> 1 ^ (remainder & 1 ? POLYNOMIAL : 0);
        table[byte] = remainder;
    }
}

static unsigned with_bytes(unsigned crc, const unsigned char *bytes, long count) {
    for (long i = 0; i < count; i++)
        crc = crc >> 8 ^ table[(crc ^ bytes[i]) & 255];
    return crc;
}

static void put_number(unsigned number) {
    char digits[9];
    for (int i = 0; i < 8; i++)
        digits[i] = "0123456789abcdef"[number >> (28 - 4 * i) & 15];
    digits[8] = '\n';
    put(digits, 9);
}

int main(void) {
    unsigned crc = 0xffffffff;
    int chunks = 0;
    long count;
    make_table();
    while ((count = get(chunk, CHUNK)) > 0) {
        crc = with_bytes(crc, chunk, count);
        chunks++;
    }
    put_number(~crc);
    return chunks;
}
