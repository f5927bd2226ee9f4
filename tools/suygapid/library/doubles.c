/* Products, sums and differences of doubles, rounded to nearest, ties to even (IEEE 754), in place of those of libgcc's
   soft-fp, which take nearly twice as many steps. What is not usual (zeros, numbers below the smallest normal one, infinities,
   NaNs) has functions of its own. */
#include "doubles.h"

/* The statement without instructions keeps gcc from copies where nothing is to be swapped. */
#define SWAP(a, b) do { u32 held = a; __asm__("" : "+r"(held)); a = b, b = held; } while (0)

number __muldf3(number left, number right);

/* A product where a number is 0, infinite, not a number or below the smallest normal one. Of the last, the digits are moved up,
   and the other number's exponent down. If that has none left, the product is too small. */
OUT_OF_LINE number special_product(number left, number right) {
    u32 high = left >> 32, low = left, by_high = right >> 32, by_low = right, sign = (high ^ by_high) & SIGN;
    u32 size = high << 1 | (low != 0), by_size = by_high << 1 | (by_low != 0);
    if (size > by_size)
        return special_product(right, left);
    if (by_size >= INFINITE << 21)
        return by_size > INFINITE << 21 || !size ? not_a_number() : infinite(sign);
    if (!size || by_size >> 21 <= 52)
        return joined(sign, 0);
    by_high = (by_high & ~SIGN) | sign;
    for (high &= ~SIGN; !(high & FIRST); by_high -= FIRST)
        high = high << 1 | low >> 31, low <<= 1;
    return __muldf3(joined(high, low), joined(by_high, by_low));
}

number __muldf3(number left, number right) {
    u32 high = left >> 32, low = left, by_high = right >> 32, by_low = right, rest, last, sign = (high ^ by_high) & SIGN;
    int exponent = exponent_of(high), by_exponent = exponent_of(by_high);
    u64 middle, lower, upper;
    if (RARE((u32)exponent - 1 >= INFINITE - 1 || (u32)by_exponent - 1 >= INFINITE - 1))
        return special_product(left, right);
    /* 53 digits by 64 of which the last 11 are 0: the answer's 53 end at 2^64 in a product above 2, and else 52. */
    high = digits_of(high);
    by_high = by_high << 11 | by_low >> 21 | SIGN;
    by_low <<= 11;
    middle = (u64)low * by_high + high_product(low, by_low);
    lower = (u64)high * by_low + (u32)middle;
    upper = (u64)high * by_high + (middle >> 32) + (lower >> 32);
    exponent += by_exponent - 1022;
    last = low * by_low;
    high = upper >> 32, low = upper, rest = lower;
    if (!(high & FIRST)) {
        high = high << 1 | low >> 31, low = low << 1 | rest >> 31, rest <<= 1;
        exponent--;
    }
    if (RARE((u32)exponent - 1 >= INFINITE - 1))
        return far_away(sign, exponent, joined(high, low), rest, last);
    return rounded(sign, exponent, high, low, rest, last);
}

number __adddf3(number left, number right);

/* A sum where a number is below the smallest normal one. Both times 2^64 are normal, and no digit is lost on the way back. */
OUT_OF_LINE number small_sum(number first, number second) {
    const number up = 1087ull << 52, down = 959ull << 52;
    return __muldf3(__adddf3(__muldf3(first, up), __muldf3(second, up)), down);
}

/* A sum where the first number, of the larger exponent, is infinite or not a number, or the second is 0 or below the smallest
   normal one. */
OUT_OF_LINE number special_sum(number first, number second) {
    const number infinity = (number)INFINITE << 53;
    number size = first << 1, by_size = second << 1;
    if (size > infinity || by_size > infinity || (by_size == infinity && first != second))
        return not_a_number();
    if (!by_size)
        return size ? first : first & second;
    return size >> 53 > 64 ? first : small_sum(first, second);
}

/* A difference of two numbers of almost the same size, which is exact. */
OUT_OF_LINE number cancelled(u64 digits, u32 sign, int exponent) {
    if (!(digits >> 32)) {
        if (!digits)
            return 0;
        digits <<= 21, exponent -= 21;
    }
    if (!(digits >> 37))
        digits <<= 16, exponent -= 16;
    if (!(digits >> 45))
        digits <<= 8, exponent -= 8;
    if (!(digits >> 49))
        digits <<= 4, exponent -= 4;
    if (!(digits >> 51))
        digits <<= 2, exponent -= 2;
    if (!(digits >> 52))
        digits <<= 1, exponent--;
    if (RARE(exponent < 1))
        return far_away(sign, exponent, digits, 0, 0);
    return rounded(sign, exponent, digits >> 32, digits, 0, 0);
}

/* What two numbers come to whose digits are those of one exponent: of equal signs, or of different ones. */

static number added(u32 sign, int exponent, u32 high, u32 low, u32 by_high, u32 by_low, u32 rest) {
    low += by_low;
    high += by_high + (low < by_low);
    if (high >= FIRST << 1) {
        rest = low << 31 | rest >> 1 | (rest & 1);
        low = low >> 1 | high << 31;
        high >>= 1;
        if (RARE(++exponent == INFINITE))
            return infinite(sign);
    }
    return rounded(sign, exponent, high, low, rest, 0);
}

static number subtracted(u32 sign, int exponent, u32 high, u32 low, u32 by_high, u32 by_low, u32 rest) {
    u32 kept = low - by_low;
    high -= by_high + (low < by_low) + (kept < (rest != 0));
    low = kept - (rest != 0);
    rest = -rest;
    if ((int)high < 0) {
        low = -low;
        high = -high - (low != 0);
        sign ^= SIGN;
    }
    if (!(high & FIRST)) {
        if (exponent > 1) {
            high = high << 1 | low >> 31, low = low << 1 | rest >> 31, rest <<= 1;
            exponent--;
        }
        if (!(high & FIRST))
            return cancelled(joined(high, low), sign, exponent);
    }
    return rounded(sign, exponent, high, low, rest, 0);
}

number __adddf3(number left, number right) {
    u32 first = left >> 32, low = left, second = right >> 32, by_low = right, high, by_high, rest = 0;
    int exponent = exponent_of(first), by_exponent = exponent_of(second), distance;
    if (exponent < by_exponent) {
        SWAP(first, second);
        SWAP(low, by_low);
        SWAP(exponent, by_exponent);
    }
    if (RARE(!by_exponent || exponent == INFINITE))
        return special_sum(joined(first, low), joined(second, by_low));
    high = digits_of(first), by_high = digits_of(second);
    distance = exponent - by_exponent;
    if (distance >= 32) {
        if (distance > 54)
            return joined(first, low);
        distance &= 31;
        rest = by_low >> distance | by_high << 1 << (31 - distance) | (by_low << 1 << (31 - distance) ? 1 : 0);
        by_low = by_high >> distance;
        by_high = 0;
    } else if (distance) {
        rest = by_low << (-distance & 31);
        by_low = by_low >> distance | by_high << (-distance & 31);
        by_high >>= distance;
    }
    if ((int)(first ^ second) >= 0)
        return added(first & SIGN, exponent, high, low, by_high, by_low, rest);
    return subtracted(first & SIGN, exponent, high, low, by_high, by_low, rest);
}

number __subdf3(number left, number right) {
    return __adddf3(left, right ^ (number)SIGN << 32);
}
