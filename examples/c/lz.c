/* Packs its input by references to earlier bytes (LZ77, found by chains of a hash table), prints the length before and
   after and the packed bytes, and ends in 1 if these don't unpack to the input again. */
#include "gates.h"
#include "numbers.h"

enum { MOST = 8192, HASHES = 1024, SHORTEST = 3, LONGEST = 18, FARTHEST = 4096, TRIES = 32, NONE = 0xffff };

static unsigned char input[MOST], packed[MOST + MOST / 8 + 1], unpacked[MOST];
static unsigned short newest[HASHES], older[MOST];

struct match {
    unsigned length, distance;
};

static unsigned hash(const unsigned char *at) {
    return (at[0] * 33u * 33u + at[1] * 33u + at[2]) % HASHES;
}

static unsigned common(const unsigned char *a, const unsigned char *b, unsigned most) {
    unsigned length = 0;
    while (length < most && a[length] == b[length])
        length++;
    return length;
}

static void insert(unsigned at) {
    unsigned key = hash(input + at);
    older[at] = newest[key];
    newest[key] = at;
}

static struct match longest_match(unsigned at, unsigned length) {
    struct match best = {0, 0};
    unsigned most = length - at < LONGEST ? length - at : LONGEST;
    if (most < SHORTEST)
        return best;
    unsigned other = newest[hash(input + at)];
    for (int tries = 0; tries < TRIES && other != NONE && at - other <= FARTHEST; tries++) {
        unsigned found = common(input + other, input + at, most);
        if (found > best.length) {
            best.length = found;
            best.distance = at - other;
        }
        other = older[other];
    }
    return best;
}

/* A byte of eight flags goes before eight tokens: a byte as it is, or 12 bits of distance and 4 of length. */
static unsigned pack(unsigned length) {
    unsigned char *to = packed, *flags = 0;
    unsigned at = 0;
    for (unsigned tokens = 0; at < length; tokens++) {
        if (tokens % 8 == 0) {
            flags = to++;
            *flags = 0;
        }
        struct match match = longest_match(at, length);
        unsigned step = 1;
        if (match.length >= SHORTEST) {
            unsigned token = (match.distance - 1) << 4 | (match.length - SHORTEST);
            *flags |= 1 << tokens % 8;
            *to++ = token >> 8;
            *to++ = token;
            step = match.length;
        } else {
            *to++ = input[at];
        }
        for (; step; step--, at++)
            if (at + SHORTEST <= length)
                insert(at);
    }
    return to - packed;
}

static unsigned unpack(unsigned size) {
    const unsigned char *from = packed, *end = packed + size;
    unsigned char *to = unpacked;
    unsigned flags = 0;
    for (unsigned tokens = 0; from < end; tokens++, flags >>= 1) {
        if (tokens % 8 == 0)
            flags = *from++;
        if (!(flags & 1)) {
            *to++ = *from++;
            continue;
        }
        unsigned token = from[0] << 8 | from[1];
        from += 2;
        const unsigned char *source = to - (token >> 4) - 1;
        for (unsigned length = (token & 15) + SHORTEST; length; length--)
            *to++ = *source++;
    }
    return to - unpacked;
}

int main(void) {
    unsigned length = 0;
    long count;
    while (length < MOST && (count = get(input + length, MOST - length)) > 0)
        length += count;
    for (int i = 0; i < HASHES; i++)
        newest[i] = NONE;
    unsigned size = pack(length);
    put_number(length);
    put(" ", 1);
    put_number(size);
    put("\n", 1);
    put(packed, size);
    return unpack(size) != length || common(input, unpacked, length) != length;
}
