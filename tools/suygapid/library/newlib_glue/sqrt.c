/* Square roots, rounded to nearest, by products of integers. Newlib's own find one bit at a time.

   A first approximation of the reciprocal square root gets twice as many right digits by each of Newton's steps, its product
   with the number is the root to 28 bits, one step more gives all 53, and the remainder tells which of two neighbours is
   nearer (Muller and others, Handbook of Floating-Point Arithmetic, "Newton-Raphson-based methods"; Warren, Hacker's
   Delight, 11-1). Comments say how many bits stand before and behind a number's binary point. */
typedef unsigned u32;
typedef unsigned long long u64;
typedef union { double value; u64 bits; struct { u32 low, high; } half; } parts;

static u32 high_product(u32 a, u32 b) {
    return (u64)a * b >> 32;
}

/* The reciprocal square root of 2.30 bits, a number from 1 to below 4, as 0.32 bits: never above, and below by at most
   2^-28 of it. The polynomial is 0.976 to 1.024 of it. */
static u32 reciprocal_root(u32 number) {
    u32 root = 0x55dde000 - (high_product(number, 0xd2435000 - high_product(number, 0x68de5000)) << 1);
    for (int steps = 0; steps < 3; steps++) {
        u32 square = high_product(high_product(number, root), root);
        root = high_product(root, 0xbffffffe - square) << 1; /* by half of 3 - square, and never above */
    }
    return root;
}

double __ieee754_sqrt(double value);

/* Of what isn't a positive normal number. */
static __attribute__((noinline)) double other_root(double value) {
    parts number = {value};
    u32 high = number.half.high, low = number.half.low;
    if (!(high << 1 | low) || (high == 0x7ff00000 && !low))
        return value;
    return high < 0x100000 ? __ieee754_sqrt(value * 0x1p108) * 0x1p-54 : __builtin_nan("");
}

double __ieee754_sqrt(double value) {
    parts number = {value};
    u32 exponent = number.half.high >> 20, reciprocal, first;
    u64 square, left, root;
    if (exponent - 1 >= 0x7fe)
        return other_root(value);
    square = number.bits << 11 | 1ull << 63; /* 2.62 bits */
    if (exponent & 1)
        square >>= 1;
    reciprocal = reciprocal_root(square >> 32);
    first = high_product(square >> 32, reciprocal); /* 2.30 bits, below the root by at most 8 of the last */
    left = (square >> 2) - (u64)first * first;      /* 4.60 bits, of which at most 35 are used */
    /* 12.52 bits, at most the root, and below it by less than 1.3 of the last: this one is nearest, or the next. */
    root = ((u64)first << 22) + (high_product(left >> 3, reciprocal) >> 6);
    root += (root * root + root - (square << 42)) >> 63; /* where the number is above the square of root + 1/2 */
    number.bits = root + ((u64)((exponent + 1021) >> 1) << 52);
    return number.value;
}

/* A root of 53 bits is rounded to 24 as the root itself is. */
float __ieee754_sqrtf(float value) {
    return __ieee754_sqrt(value);
}
