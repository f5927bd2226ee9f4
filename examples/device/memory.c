/* What gcc may call by itself. */
#include "host.h"

void *memset(void *to, int byte, size_t length) {
    for (uint8_t *at = to; length > 0; length--)
        *at++ = (uint8_t)byte;
    return to;
}

void *memcpy(void *restrict to, const void *restrict from, size_t length) {
    const uint8_t *source = from;
    for (uint8_t *at = to; length > 0; length--)
        *at++ = *source++;
    return to;
}
