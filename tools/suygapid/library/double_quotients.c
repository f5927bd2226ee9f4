/* Quotients of doubles, rounded to nearest, ties to even (IEEE 754), in place of those of libgcc's soft-fp, which take twice
   as many steps.

   A reciprocal of the divisor's first digits gives the quotient's first 32 with a small error, what they leave gives the
   others, and what these leave tells which of two neighbours is nearer (Muller and others, Handbook of Floating-Point
   Arithmetic, "Newton-Raphson-based methods"). No quotient of 53 digits by 53 is halfway between two numbers of 53 digits. */
#include "doubles.h"

number __divdf3(number left, number right);

/* The exponent of a number that isn't 0. Of the number, the digits stay. */
static int taken_apart(number *size) {
    int exponent = *size >> 52;
    if (exponent)
        *size = joined(digits_of(*size >> 32), *size);
    else
        for (exponent = 1; !(*size >> 52); exponent--)
            *size <<= 1;
    return exponent;
}

/* A quotient where a number is 0, infinite, not a number or below the smallest normal one, or the quotient may be. That of the
   digits is usual. What it leaves says whether more digits follow, or whether it was rounded up. */
OUT_OF_LINE number special_quotient(number left, number right) {
    const number infinity = (number)INFINITE << 52, one = 1023ull << 52;
    u32 sign = (left ^ right) >> 32 & SIGN;
    number size = left << 1 >> 1, by = right << 1 >> 1, quotient;
    long long remainder;
    int exponent;
    if (size > infinity || by > infinity || (size == by && (!size || size == infinity)))
        return not_a_number();
    if (!by || size == infinity)
        return infinite(sign);
    if (!size || by == infinity)
        return joined(sign, 0);
    exponent = taken_apart(&size);
    exponent -= taken_apart(&by);
    quotient = __divdf3(size - (1ull << 52) + one, by - (1ull << 52) + one);
    exponent += taken_apart(&quotient);
    remainder = (size << (size < by ? 53 : 52)) - quotient * by;
    if ((u32)exponent - 1 < INFINITE - 1)
        return rounded(sign, exponent, quotient >> 32, quotient, 0, 0);
    return far_away(sign, exponent, quotient - (remainder < 0), remainder < 0 ? ~0u : 0, remainder != 0);
}

/* 2^63 through a number from 2^31: at least by 2 below, and at most by 10. */
static u32 reciprocal(u32 number) {
    u32 first = ~0u / (number >> 16) << 15;                             /* 1 - 2^-16 to 1 + 2^-15 of it */
    u32 to_two = ~high_product(number, first);                          /* by Newton's step what is missing is squared */
    return (high_product(first, to_two) << 1) - 2;
}

number __divdf3(number left, number right) {
    u32 high = left >> 32, low = left, by_high = right >> 32, by_low = right, upper = (high ^ by_high) & SIGN;
    u32 exponent = exponent_of(high), by_exponent = exponent_of(by_high), inverse, first, second;
    u64 by, remainder;
    if (RARE(exponent - 1 >= INFINITE - 1 || by_exponent - 1 >= INFINITE - 1))
        return special_quotient(left, right);
    exponent += 1022 - by_exponent; /* with the first digit, that of a quotient from 1 to 2 */
    if (RARE(exponent - 1 >= INFINITE - 2))
        return special_quotient(left, right);
    upper |= exponent << 20;
    high = digits_of(high), by_high = digits_of(by_high), by = joined(by_high, by_low);
    inverse = reciprocal(by_high << 11 | by_low >> 21);
    first = high_product(high << 11 | low >> 21, inverse);              /* 2^31 of the quotient, below it by less than 12 */
    if (high < by_high || (high == by_high && low < by_low)) {
        first <<= 1;                                                    /* 2^32 of it, and 24 */
        remainder = (u64)low << 32;
        upper -= FIRST;
    } else
        remainder = joined(low >> 1 | high << 31, low << 31);
    remainder -= first * by;
    second = high_product(remainder >> 26, inverse) >> 5;               /* 2^21 of what is left, below it by less than 3/2 */
    second += ((second * 2 + 1) * by - (remainder << 22)) >> 63;        /* where more than half of the divisor is left */
    low = (first << 21) + second;
    upper += (first >> 11) + (low < second);
    return joined(upper, low);
}
