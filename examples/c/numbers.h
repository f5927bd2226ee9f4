/* Numbers as decimal text, by the gates. */
#ifndef NUMBERS_H
#define NUMBERS_H

#include "gates.h"

static inline void put_number(long long number) {
    char digits[24];
    int at = sizeof digits;
    unsigned long long rest = number;
    if (number < 0)
        rest = 0 - rest;
    do {
        digits[--at] = '0' + rest % 10;
        rest /= 10;
    } while (rest);
    if (number < 0)
        digits[--at] = '-';
    put(digits + at, sizeof digits - at);
}

#endif
