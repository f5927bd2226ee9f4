/* What the functions of doubles.c, double_quotients.c and double_conversions.c share.

   The digits of a number are 53, of which `high` has 21 and `low` 32; the first one is 1 and isn't stored. `rest` has the 32
   behind them: its first bit is a half of the last digit. A NaN is always the one that libgcc gives on RISC-V. */
typedef unsigned u32;
typedef unsigned long long u64;
typedef u64 number; /* a double's bits, which are in the same registers as the double */
#define RARE(condition) __builtin_expect(condition, 0)
#define OUT_OF_LINE static __attribute__((noinline))

#define FIRST (1u << 20)
#define SIGN (1u << 31)
#define INFINITE 0x7ffu

static number joined(u32 high, u32 low) {
    return (number)high << 32 | low;
}

static number infinite(u32 sign) {
    return joined(sign | INFINITE << 20, 0);
}

static number not_a_number(void) {
    return joined(INFINITE << 20 | FIRST >> 1, 0);
}

static int exponent_of(u32 high) {
    return high << 1 >> 21;
}

static u32 digits_of(u32 high) {
    return high << 12 >> 12 | FIRST;
}

static u32 high_product(u32 a, u32 b) {
    return (u64)a * b >> 32;
}

/* A number of an exponent from 1 to 0x7fe; `beyond` are digits behind `rest`. */
static number rounded(u32 sign, int exponent, u32 high, u32 low, u32 rest, u32 beyond) {
    high += (u32)(exponent - 1) << 20;
    if (rest & SIGN) {
        low++;
        high += low == 0;
        if (!(rest << 1 | beyond))
            low &= ~1u;
    }
    return joined(high | sign, low);
}

/* One of any other exponent. */
OUT_OF_LINE number far_away(u32 sign, int exponent, u64 digits, u32 rest, u32 beyond) {
    int shift = exponent < -52 ? 54 : 1 - exponent;
    u64 behind;
    if (exponent > 0)
        return infinite(sign);
    behind = digits << (64 - shift);
    digits >>= shift;
    return rounded(sign, 1, digits >> 32, digits, behind >> 32, (u32)behind | rest | beyond);
}
