/* SHA-256, in the words of FIPS 180-4: section 6.2.2 names the variables. */
#include "bytes.h"
#include "sfi_device_store.h"

static const uint32_t K[64] = {
    0x428a2f98, 0x71374491, 0xb5c0fbcf, 0xe9b5dba5, 0x3956c25b, 0x59f111f1, 0x923f82a4, 0xab1c5ed5,
    0xd807aa98, 0x12835b01, 0x243185be, 0x550c7dc3, 0x72be5d74, 0x80deb1fe, 0x9bdc06a7, 0xc19bf174,
    0xe49b69c1, 0xefbe4786, 0x0fc19dc6, 0x240ca1cc, 0x2de92c6f, 0x4a7484aa, 0x5cb0a9dc, 0x76f988da,
    0x983e5152, 0xa831c66d, 0xb00327c8, 0xbf597fc7, 0xc6e00bf3, 0xd5a79147, 0x06ca6351, 0x14292967,
    0x27b70a85, 0x2e1b2138, 0x4d2c6dfc, 0x53380d13, 0x650a7354, 0x766a0abb, 0x81c2c92e, 0x92722c85,
    0xa2bfe8a1, 0xa81a664b, 0xc24b8b70, 0xc76c51a3, 0xd192e819, 0xd6990624, 0xf40e3585, 0x106aa070,
    0x19a4c116, 0x1e376c08, 0x2748774c, 0x34b0bcb5, 0x391c0cb3, 0x4ed8aa4a, 0x5b9cca4f, 0x682e6ff3,
    0x748f82ee, 0x78a5636f, 0x84c87814, 0x8cc70208, 0x90befffa, 0xa4506ceb, 0xbef9a3f7, 0xc67178f2
};

static uint32_t rotated(uint32_t x, unsigned n) { return x >> n | x << (32 - n); }

/* W[0] to W[63], of the block */
static void schedule(uint32_t W[64], const uint8_t block[64]) {
    for (int t = 0; t < 16; t++)
        W[t] = (uint32_t)block[4 * t] << 24 | (uint32_t)block[4 * t + 1] << 16 | (uint32_t)block[4 * t + 2] << 8 | block[4 * t + 3];
    for (int t = 16; t < 64; t++) {
        uint32_t sigma0 = rotated(W[t - 15], 7) ^ rotated(W[t - 15], 18) ^ W[t - 15] >> 3;
        uint32_t sigma1 = rotated(W[t - 2], 17) ^ rotated(W[t - 2], 19) ^ W[t - 2] >> 10;
        W[t] = sigma1 + W[t - 7] + sigma0 + W[t - 16];
    }
}

static void compress(uint32_t H[8], const uint8_t block[64]) {
    uint32_t W[64], v[8]; /* v: a to h */
    schedule(W, block);
    memcpy(v, H, sizeof v);
    for (int t = 0; t < 64; t++) {
        uint32_t sum1 = rotated(v[4], 6) ^ rotated(v[4], 11) ^ rotated(v[4], 25);
        uint32_t sum0 = rotated(v[0], 2) ^ rotated(v[0], 13) ^ rotated(v[0], 22);
        uint32_t T1 = v[7] + sum1 + ((v[4] & v[5]) ^ (~v[4] & v[6])) + K[t] + W[t];
        uint32_t T2 = sum0 + ((v[0] & v[1]) ^ (v[0] & v[2]) ^ (v[1] & v[2]));
        for (int i = 7; i > 0; i--)
            v[i] = v[i - 1];
        v[4] += T1;
        v[0] = T1 + T2;
    }
    for (int i = 0; i < 8; i++)
        H[i] += v[i];
}

void sfi_device_sha256_begin(struct sfi_device_sha256 *hash) {
    static const uint32_t H0[8] = {
        0x6a09e667, 0xbb67ae85, 0x3c6ef372, 0xa54ff53a, 0x510e527f, 0x9b05688c, 0x1f83d9ab, 0x5be0cd19
    };
    memset(hash, 0, sizeof *hash);
    memcpy(hash->state, H0, sizeof H0);
}

void sfi_device_sha256_add(struct sfi_device_sha256 *hash, const uint8_t *bytes, uint32_t length) {
    for (uint32_t i = 0; i < length; i++) {
        hash->block[hash->length % 64] = bytes[i];
        hash->length++;
        if (hash->length % 64 == 0)
            compress(hash->state, hash->block);
    }
}

void sfi_device_sha256_end(struct sfi_device_sha256 *hash, uint8_t digest[SFI_DEVICE_DIGEST_SIZE]) {
    static const uint8_t one = 0x80, zero = 0;
    uint8_t bits[8];
    for (int i = 0; i < 4; i++) {
        bits[i] = (uint8_t)(hash->length >> 29 >> (24 - 8 * i));
        bits[4 + i] = (uint8_t)(hash->length << 3 >> (24 - 8 * i));
    }
    sfi_device_sha256_add(hash, &one, 1);
    while (hash->length % 64 != 56)
        sfi_device_sha256_add(hash, &zero, 1);
    sfi_device_sha256_add(hash, bits, sizeof bits);
    for (int i = 0; i < SFI_DEVICE_DIGEST_SIZE; i++)
        digest[i] = (uint8_t)(hash->state[i / 4] >> (24 - i % 4 * 8));
}
