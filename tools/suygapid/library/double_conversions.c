/* Integers as doubles, rounded to nearest, ties to even (IEEE 754), in place of those of libgcc's soft-fp, which take two to
   three times as many steps. */
#include "doubles.h"

/* What stands before the digits of a size from 2^31: the sign, and the exponent without the 1 that the first digit adds. */
#define PLUS (1023u + 31 - 1)
#define MINUS (1u << 11 | PLUS)

/* From 1 to 2^16, whose digits are all in the upper half. */
static inline __attribute__((always_inline)) number of_short(u32 size) {
    u32 exponent = 1023 + 15 - 1;
    size <<= 5;
    if (!(size >> 13))
        size <<= 8, exponent -= 8;
    if (!(size >> 17))
        size <<= 4, exponent -= 4;
    if (!(size >> 19))
        size <<= 2, exponent -= 2;
    if (!(size >> 20))
        size <<= 1, exponent--;
    return joined((exponent << 20) + size, 0);
}

/* A size that isn't 0; `before` is the one of its sign. */
OUT_OF_LINE number of_word(u32 size, u32 before) {
    if (!(size >> 16))
        size <<= 16, before -= 16;
    if (!(size >> 24))
        size <<= 8, before -= 8;
    if (!(size >> 28))
        size <<= 4, before -= 4;
    if (!(size >> 30))
        size <<= 2, before -= 2;
    if (!(size >> 31))
        size <<= 1, before--;
    return joined((before << 20) + (size >> 11), size << 21);
}

/* A size from 2^32. */
OUT_OF_LINE number of_two_words(u64 size, u32 sign) {
    int exponent = 1023 + 63;
    if (!(size >> 48))
        size <<= 16, exponent -= 16;
    if (!(size >> 56))
        size <<= 8, exponent -= 8;
    if (!(size >> 60))
        size <<= 4, exponent -= 4;
    if (!(size >> 62))
        size <<= 2, exponent -= 2;
    if (!(size >> 63))
        size <<= 1, exponent--;
    return rounded(sign, exponent, size >> 43, size >> 11, size << 21, 0);
}

number __floatsidf(u32 value) {
    if (!((value - 1) >> 16))
        return of_short(value);
    if (!value)
        return 0;
    return value & SIGN ? of_word(-value, MINUS) : of_word(value, PLUS);
}

number __floatunsidf(u32 value) {
    return value & SIGN ? of_word(value, PLUS) : __floatsidf(value);
}

/* What isn't short. */
OUT_OF_LINE number of_long(u64 value) {
    u32 high = value >> 32, low = value;
    if (!high)
        return low ? of_word(low, PLUS) : 0;
    if (high == ~0u && low)
        return of_word(-low, MINUS);
    return high & SIGN ? of_two_words(-value, SIGN) : of_two_words(value, 0);
}

number __floatdidf(u64 value) {
    u32 high = value >> 32, low = value;
    return high | (low - 1) >> 16 ? of_long(value) : of_short(low);
}

number __floatundidf(u64 value) {
    return value >> 32 ? of_two_words(value, 0) : __floatunsidf(value);
}
