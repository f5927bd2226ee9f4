/* Prints the SHA-256 digest (FIPS 180-4) of its input in hexadecimal. */
#include "gates.h"

enum { BLOCK = 64 };

static const unsigned round_constants[64] = {
    0x428a2f98, 0x71374491, 0xb5c0fbcf, 0xe9b5dba5, 0x3956c25b, 0x59f111f1, 0x923f82a4, 0xab1c5ed5,
    0xd807aa98, 0x12835b01, 0x243185be, 0x550c7dc3, 0x72be5d74, 0x80deb1fe, 0x9bdc06a7, 0xc19bf174,
    0xe49b69c1, 0xefbe4786, 0x0fc19dc6, 0x240ca1cc, 0x2de92c6f, 0x4a7484aa, 0x5cb0a9dc, 0x76f988da,
    0x983e5152, 0xa831c66d, 0xb00327c8, 0xbf597fc7, 0xc6e00bf3, 0xd5a79147, 0x06ca6351, 0x14292967,
    0x27b70a85, 0x2e1b2138, 0x4d2c6dfc, 0x53380d13, 0x650a7354, 0x766a0abb, 0x81c2c92e, 0x92722c85,
    0xa2bfe8a1, 0xa81a664b, 0xc24b8b70, 0xc76c51a3, 0xd192e819, 0xd6990624, 0xf40e3585, 0x106aa070,
    0x19a4c116, 0x1e376c08, 0x2748774c, 0x34b0bcb5, 0x391c0cb3, 0x4ed8aa4a, 0x5b9cca4f, 0x682e6ff3,
    0x748f82ee, 0x78a5636f, 0x84c87814, 0x8cc70208, 0x90befffa, 0xa4506ceb, 0xbef9a3f7, 0xc67178f2,
};

static unsigned state[8] = {
    0x6a09e667, 0xbb67ae85, 0x3c6ef372, 0xa54ff53a, 0x510e527f, 0x9b05688c, 0x1f83d9ab, 0x5be0cd19,
};

static unsigned rotated(unsigned word, int by) {
    return word >> by | word << (32 - by);
}

static void make_schedule(unsigned schedule[64], const unsigned char *block) {
    for (int i = 0; i < 16; i++, block += 4)
        schedule[i] = (unsigned)block[0] << 24 | block[1] << 16 | block[2] << 8 | block[3];
    for (int i = 16; i < 64; i++) {
        unsigned early = schedule[i - 15], late = schedule[i - 2];
        schedule[i] = schedule[i - 16] + (rotated(early, 7) ^ rotated(early, 18) ^ early >> 3) + schedule[i - 7] +
                      (rotated(late, 17) ^ rotated(late, 19) ^ late >> 10);
    }
}

static void take_block(const unsigned char *block) {
    unsigned schedule[64], work[8];
    make_schedule(schedule, block);
    for (int i = 0; i < 8; i++)
        work[i] = state[i];
    for (int i = 0; i < 64; i++) {
        unsigned e = work[4], a = work[0];
        unsigned first = work[7] + (rotated(e, 6) ^ rotated(e, 11) ^ rotated(e, 25)) +
                         ((e & work[5]) ^ (~e & work[6])) + round_constants[i] + schedule[i];
        unsigned second = (rotated(a, 2) ^ rotated(a, 13) ^ rotated(a, 22)) +
                          ((a & work[1]) ^ (a & work[2]) ^ (work[1] & work[2]));
        for (int k = 7; k > 0; k--)
            work[k] = work[k - 1];
        work[4] += first;
        work[0] = first + second;
    }
    for (int i = 0; i < 8; i++)
        state[i] += work[i];
}

/* Takes the last bytes, fewer than a block, with their padding: a bit 1, zeros, and the length in bits. */
static void take_last(unsigned char *block, int count, unsigned long long length) {
    block[count++] = 0x80;
    if (count > BLOCK - 8) {
        while (count < BLOCK)
            block[count++] = 0;
        take_block(block);
        count = 0;
    }
    while (count < BLOCK - 8)
        block[count++] = 0;
    for (int i = 0; i < 8; i++)
        block[BLOCK - 8 + i] = length * 8 >> (56 - 8 * i);
    take_block(block);
}

static void put_digest(void) {
    char digits[65];
    for (int i = 0; i < 64; i++)
        digits[i] = "0123456789abcdef"[state[i / 8] >> (28 - 4 * (i % 8)) & 15];
    digits[64] = '\n';
    put(digits, 65);
}

int main(void) {
    unsigned char block[BLOCK];
    unsigned long long length = 0;
    long count;
    while ((count = get(block, BLOCK)) == BLOCK) {
        take_block(block);
        length += BLOCK;
    }
    take_last(block, count, length + count);
    put_digest();
    return 0;
}
