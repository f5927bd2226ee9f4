/* Four kernels for translated.py: -DKERNEL=sha, sort, matrix or sieve, -DTIMES=N times. The program exits with a checksum, or with
   -DNATIVE prints it; with -DRUN_ALONE it has no main. */
#include <stdint.h>
#ifdef NATIVE
#include <stdio.h>
#endif

enum { NUMBERS = 10000, SIDE = 64, SIEVE = 65536, BLOCKS = 16 };

static uint32_t seed = 1;

static uint32_t next(void) {
    seed = seed * 1664525u + 1013904223u;
    return seed >> 8;
}

/* SHA-256 of some blocks. */
static uint32_t state[8], block[16], schedule[64];
static const uint32_t constants[64] = {
    0x428a2f98, 0x71374491, 0xb5c0fbcf, 0xe9b5dba5, 0x3956c25b, 0x59f111f1, 0x923f82a4, 0xab1c5ed5, 0xd807aa98, 0x12835b01, 0x243185be,
    0x550c7dc3, 0x72be5d74, 0x80deb1fe, 0x9bdc06a7, 0xc19bf174, 0xe49b69c1, 0xefbe4786, 0x0fc19dc6, 0x240ca1cc, 0x2de92c6f, 0x4a7484aa,
    0x5cb0a9dc, 0x76f988da, 0x983e5152, 0xa831c66d, 0xb00327c8, 0xbf597fc7, 0xc6e00bf3, 0xd5a79147, 0x06ca6351, 0x14292967, 0x27b70a85,
    0x2e1b2138, 0x4d2c6dfc, 0x53380d13, 0x650a7354, 0x766a0abb, 0x81c2c92e, 0x92722c85, 0xa2bfe8a1, 0xa81a664b, 0xc24b8b70, 0xc76c51a3,
    0xd192e819, 0xd6990624, 0xf40e3585, 0x106aa070, 0x19a4c116, 0x1e376c08, 0x2748774c, 0x34b0bcb5, 0x391c0cb3, 0x4ed8aa4a, 0x5b9cca4f,
    0x682e6ff3, 0x748f82ee, 0x78a5636f, 0x84c87814, 0x8cc70208, 0x90befffa, 0xa4506ceb, 0xbef9a3f7, 0xc67178f2};

static uint32_t turned(uint32_t word, int by) {
    return word >> by | word << (32 - by);
}

static void add_block(void) {
    uint32_t v[8];
    for (int k = 0; k < 16; k++)
        schedule[k] = block[k];
    for (int k = 16; k < 64; k++) {
        const uint32_t a = schedule[k - 15], b = schedule[k - 2];
        schedule[k] = schedule[k - 16] + (turned(a, 7) ^ turned(a, 18) ^ a >> 3) + schedule[k - 7] + (turned(b, 17) ^ turned(b, 19) ^ b >> 10);
    }
    for (int k = 0; k < 8; k++)
        v[k] = state[k];
    for (int k = 0; k < 64; k++) {
        const uint32_t one = v[7] + (turned(v[4], 6) ^ turned(v[4], 11) ^ turned(v[4], 25)) + ((v[4] & v[5]) ^ (~v[4] & v[6])) + constants[k] + schedule[k];
        const uint32_t two = (turned(v[0], 2) ^ turned(v[0], 13) ^ turned(v[0], 22)) + ((v[0] & v[1]) ^ (v[0] & v[2]) ^ (v[1] & v[2]));
        v[7] = v[6], v[6] = v[5], v[5] = v[4], v[4] = v[3] + one, v[3] = v[2], v[2] = v[1], v[1] = v[0], v[0] = one + two;
    }
    for (int k = 0; k < 8; k++)
        state[k] += v[k];
}

uint32_t sha(void) {
    for (int k = 0; k < BLOCKS; k++) {
        for (int i = 0; i < 16; i++)
            block[i] = next();
        add_block();
    }
    return state[0];
}

/* Quicksort of random numbers. */
static uint32_t numbers[NUMBERS];

static void quick(uint32_t *low, uint32_t *high) {
    while (low < high) {
        const uint32_t pivot = low[(high - low) / 2];
        uint32_t *a = low, *b = high;
        while (a <= b) {
            while (*a < pivot)
                a++;
            while (*b > pivot)
                b--;
            if (a <= b) {
                const uint32_t kept = *a;
                *a++ = *b, *b-- = kept;
            }
        }
        quick(low, b);
        low = a;
    }
}

uint32_t sort(void) {
    uint32_t sum = 0;
    for (int k = 0; k < NUMBERS; k++)
        numbers[k] = next();
    quick(numbers, numbers + NUMBERS - 1);
    for (int k = 0; k < NUMBERS; k++)
        sum = sum * 31 + numbers[k];
    return sum;
}

/* A product of matrices. */
static uint32_t left[SIDE][SIDE], right[SIDE][SIDE], product[SIDE][SIDE];

uint32_t matrix(void) {
    uint32_t sum = 0;
    for (int i = 0; i < SIDE; i++)
        for (int k = 0; k < SIDE; k++)
            left[i][k] = next(), right[i][k] = next();
    for (int i = 0; i < SIDE; i++)
        for (int j = 0; j < SIDE; j++) {
            uint32_t cell = 0;
            for (int k = 0; k < SIDE; k++)
                cell += left[i][k] * right[k][j];
            product[i][j] = cell;
        }
    for (int i = 0; i < SIDE; i++)
        sum += product[i][i] ^ product[i][SIDE - 1 - i];
    return sum;
}

/* How many primes there are below a bound. */
static uint8_t crossed[SIEVE];

uint32_t sieve(void) {
    uint32_t count = 0;
    for (int k = 0; k < SIEVE; k++)
        crossed[k] = 0;
    for (uint32_t k = 2; k < SIEVE; k++)
        if (!crossed[k]) {
            count++;
            for (uint32_t multiple = 2 * k; multiple < SIEVE; multiple += k)
                crossed[multiple] = 1;
        }
    return count;
}

/* The checksum of the results of TIMES runs of the kernel. */
uint32_t run(void) {
    uint32_t sum = 0;
    for (int k = 0; k < TIMES; k++)
        sum = sum * 31 + KERNEL();
    return sum;
}

#ifndef RUN_ALONE
int main(void) {
#ifdef NATIVE
    printf("%u\n", (unsigned)run());
    return 0;
#else
    return (int)run();
#endif
}
#endif
