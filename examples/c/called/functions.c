/*
 * Ten functions with arrays on their stack, which a host calls by their names, with a number: called.py compares their answers
 * with those of the same functions compiled natively, where -DNATIVE gives them a main.
 */
#include "gates.h"
#include <stdint.h>

/* Numbers from a seed. */
static uint32_t next(uint32_t *state) {
    return *state = *state * 1664525 + 1013904223;
}

/* A number that depends on each character of a text and on its place. */
static uint32_t digest(const char *text) {
    uint32_t hash = 2166136261u;
    while (*text)
        hash = (hash ^ (unsigned char)*text++) * 16777619u;
    return hash;
}

SFI_EXPORT uint32_t decimal(uint32_t number) {
    char digits[12];
    int at = sizeof digits - 1;
    digits[at] = 0;
    do {
        digits[--at] = '0' + number % 10;
        number /= 10;
    } while (number);
    return digest(digits + at);
}

SFI_EXPORT uint32_t hex(uint32_t number) {
    static const char names[] = "0123456789abcdef";
    char text[9];
    int place;
    for (place = 0; place < 8; place++)
        text[place] = names[number >> (28 - 4 * place) & 15];
    text[8] = 0;
    return digest(text);
}

static const uint32_t round_words[64] = {
    0x428a2f98, 0x71374491, 0xb5c0fbcf, 0xe9b5dba5, 0x3956c25b, 0x59f111f1, 0x923f82a4, 0xab1c5ed5, 0xd807aa98, 0x12835b01,
    0x243185be, 0x550c7dc3, 0x72be5d74, 0x80deb1fe, 0x9bdc06a7, 0xc19bf174, 0xe49b69c1, 0xefbe4786, 0x0fc19dc6, 0x240ca1cc,
    0x2de92c6f, 0x4a7484aa, 0x5cb0a9dc, 0x76f988da, 0x983e5152, 0xa831c66d, 0xb00327c8, 0xbf597fc7, 0xc6e00bf3, 0xd5a79147,
    0x06ca6351, 0x14292967, 0x27b70a85, 0x2e1b2138, 0x4d2c6dfc, 0x53380d13, 0x650a7354, 0x766a0abb, 0x81c2c92e, 0x92722c85,
    0xa2bfe8a1, 0xa81a664b, 0xc24b8b70, 0xc76c51a3, 0xd192e819, 0xd6990624, 0xf40e3585, 0x106aa070, 0x19a4c116, 0x1e376c08,
    0x2748774c, 0x34b0bcb5, 0x391c0cb3, 0x4ed8aa4a, 0x5b9cca4f, 0x682e6ff3, 0x748f82ee, 0x78a5636f, 0x84c87814, 0x8cc70208,
    0x90befffa, 0xa4506ceb, 0xbef9a3f7, 0xc67178f2};

static uint32_t turned(uint32_t word, int by) {
    return word >> by | word << (32 - by);
}

/* The first word of the digest of one block. */
SFI_EXPORT uint32_t sha_256(uint32_t seed) {
    uint32_t state[8] = {0x6a09e667, 0xbb67ae85, 0x3c6ef372, 0xa54ff53a, 0x510e527f, 0x9b05688c, 0x1f83d9ab, 0x5be0cd19};
    uint32_t words[64], mixed[8];
    int at;
    for (at = 0; at < 16; at++)
        words[at] = next(&seed);
    for (at = 16; at < 64; at++) {
        uint32_t early = turned(words[at - 15], 7) ^ turned(words[at - 15], 18) ^ words[at - 15] >> 3;
        uint32_t late = turned(words[at - 2], 17) ^ turned(words[at - 2], 19) ^ words[at - 2] >> 10;
        words[at] = words[at - 16] + early + words[at - 7] + late;
    }
    for (at = 0; at < 8; at++)
        mixed[at] = state[at];
    for (at = 0; at < 64; at++) {
        uint32_t e = mixed[4], a = mixed[0];
        uint32_t first = mixed[7] + (turned(e, 6) ^ turned(e, 11) ^ turned(e, 25)) + ((e & mixed[5]) ^ (~e & mixed[6])) +
                         round_words[at] + words[at];
        uint32_t second = (turned(a, 2) ^ turned(a, 13) ^ turned(a, 22)) +
                          ((a & mixed[1]) ^ (a & mixed[2]) ^ (mixed[1] & mixed[2]));
        int place;
        for (place = 7; place > 0; place--)
            mixed[place] = mixed[place - 1];
        mixed[4] += first;
        mixed[0] = first + second;
    }
    return state[0] + mixed[0];
}

SFI_EXPORT uint32_t histogram(uint32_t seed) {
    uint32_t counts[16] = {0}, most = 0, number;
    for (number = 0; number < 200; number++)
        counts[next(&seed) >> 28]++;
    for (number = 1; number < 16; number++)
        if (counts[number] > counts[most])
            most = number;
    return most << 16 | counts[most];
}

SFI_EXPORT uint32_t insertion_sort(uint32_t seed) {
    int numbers[24], at, place;
    uint32_t sum = 0;
    for (at = 0; at < 24; at++)
        numbers[at] = next(&seed) >> 20;
    for (at = 1; at < 24; at++) {
        int number = numbers[at];
        for (place = at; place > 0 && numbers[place - 1] > number; place--)
            numbers[place] = numbers[place - 1];
        numbers[place] = number;
    }
    for (at = 0; at < 24; at++)
        sum = sum * 31 + numbers[at];
    return sum;
}

SFI_EXPORT uint32_t matrices(uint32_t seed) {
    int left[4][4], right[4][4], product[4][4], row, column, at;
    uint32_t sum = 0;
    for (row = 0; row < 4; row++)
        for (column = 0; column < 4; column++) {
            left[row][column] = next(&seed) >> 24;
            right[row][column] = next(&seed) >> 24;
        }
    for (row = 0; row < 4; row++)
        for (column = 0; column < 4; column++) {
            product[row][column] = 0;
            for (at = 0; at < 4; at++)
                product[row][column] += left[row][at] * right[at][column];
        }
    for (at = 0; at < 4; at++)
        sum = sum * 7 + product[at][at] + product[at][3 - at];
    return sum;
}

SFI_EXPORT uint32_t crc_table(uint32_t seed) {
    uint32_t table[256], crc = ~0u, number, bit;
    for (number = 0; number < 256; number++) {
        uint32_t entry = number;
        for (bit = 0; bit < 8; bit++)
            entry = entry >> 1 ^ (entry & 1 ? 0xedb88320 : 0);
        table[number] = entry;
    }
    for (number = 0; number < 32; number++)
        crc = crc >> 8 ^ table[(crc ^ next(&seed) >> 24) & 255];
    return ~crc;
}

SFI_EXPORT uint32_t reversed_line(uint32_t seed) {
    char line[80];
    int length = 0, at;
    while (length < 60)
        line[length++] = 'a' + next(&seed) % 26;
    line[length] = 0;
    for (at = 0; at < length / 2; at++) {
        char kept = line[at];
        line[at] = line[length - 1 - at];
        line[length - 1 - at] = kept;
    }
    return digest(line);
}

/* The value of a text such as "3 4 + 5 *" with a number in place of the x. */
SFI_EXPORT uint32_t rpn(uint32_t x) {
    const char *text = "x 3 + 4 x * - 7 x 5 + * + 9 -";
    int stack[16], depth = 0;
    for (; *text; text++) {
        if (*text == ' ')
            continue;
        if (*text == 'x' || (*text >= '0' && *text <= '9')) {
            stack[depth++] = *text == 'x' ? (int)(x & 1023) : *text - '0';
            continue;
        }
        depth--;
        if (*text == '+')
            stack[depth - 1] += stack[depth];
        else if (*text == '-')
            stack[depth - 1] -= stack[depth];
        else
            stack[depth - 1] *= stack[depth];
    }
    return stack[0];
}

SFI_EXPORT uint32_t fib(uint32_t number) {
    uint32_t numbers[48] = {0, 1};
    int at;
    for (at = 2; at < 48; at++)
        numbers[at] = numbers[at - 1] + numbers[at - 2];
    return numbers[number % 48];
}

#ifdef NATIVE
#include <stdio.h>
#include <stdlib.h>

int main(int count, char **words) {
    static uint32_t (*const functions[])(uint32_t) = {decimal, hex,       sha_256,       histogram, insertion_sort,
                                                      matrices, crc_table, reversed_line, rpn,       fib};
    static const char *const names[] = {"decimal", "hex",       "sha_256",       "histogram", "insertion_sort",
                                        "matrices", "crc_table", "reversed_line", "rpn",       "fib"};
    int word;
    unsigned at;
    for (word = 1; word < count; word++)
        for (at = 0; at < sizeof names / sizeof *names; at++)
            printf("%s %s %u\n", names[at], words[word], (unsigned)functions[at](strtoul(words[word], NULL, 10)));
    return 0;
}
#endif
