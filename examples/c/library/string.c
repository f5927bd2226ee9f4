/* string.h, but for memcpy, memmove, memset, memcmp and strlen, which tools/suygapid/runtime/runtime.c has. */
#include "library.h"
#include <string.h>

OWN_GOES_FIRST void *memchr(const void *bytes, int value, size_t count) {
    const unsigned char *at = bytes;
    for (; count; count--, at++)
        if (*at == (unsigned char)value)
            return (void *)at;
    return NULL;
}

OWN_GOES_FIRST int strcmp(const char *left, const char *right) {
    for (; *left && *left == *right; left++, right++)
        continue;
    return *(const unsigned char *)left - *(const unsigned char *)right;
}

OWN_GOES_FIRST int strncmp(const char *left, const char *right, size_t count) {
    for (; count && *left && *left == *right; left++, right++)
        count--;
    return count ? *(const unsigned char *)left - *(const unsigned char *)right : 0;
}

OWN_GOES_FIRST char *strcpy(char *to, const char *from) {
    return memcpy(to, from, strlen(from) + 1);
}

OWN_GOES_FIRST char *strncpy(char *to, const char *from, size_t count) {
    size_t at = 0;
    for (; at < count && from[at]; at++)
        to[at] = from[at];
    memset(to + at, 0, count - at);
    return to;
}

OWN_GOES_FIRST char *strcat(char *to, const char *from) {
    memcpy(to + strlen(to), from, strlen(from) + 1);
    return to;
}

OWN_GOES_FIRST char *strchr(const char *text, int wanted) {
    for (; *text != (char)wanted; text++)
        if (*text == 0)
            return NULL;
    return (char *)text;
}

OWN_GOES_FIRST char *strrchr(const char *text, int wanted) {
    for (const char *at = text + strlen(text);; at--)
        if (*at == (char)wanted)
            return (char *)at;
        else if (at == text)
            return NULL;
}

OWN_GOES_FIRST char *strstr(const char *text, const char *wanted) {
    size_t length = strlen(wanted);
    for (; strncmp(text, wanted, length) != 0; text++)
        if (*text == 0)
            return NULL;
    return (char *)text;
}
