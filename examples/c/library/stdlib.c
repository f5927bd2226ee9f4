/* stdlib.h: memory, numbers, random numbers and the program's end. sorting.c has qsort. */
#include "library.h"
#include "../gates.h"
#include <ctype.h>
#include <limits.h>
#include <stdint.h>
#include <stdlib.h>
#include <string.h>

enum { ALIGNMENT = 16 };

void *__heap_more(int more); /* of the runtime */

/* Memory is given out from the heap's first byte on, each byte once. */
static void *taken(size_t size) {
    return size > INT_MAX - ALIGNMENT ? NULL : __heap_more(size ? size + -size % ALIGNMENT : ALIGNMENT);
}

OWN_GOES_FIRST void *malloc(size_t size) {
    return taken(size);
}

/* A deep stack may have had the memory before. Of a call of malloc compilers would make one of calloc. */
OWN_GOES_FIRST void *calloc(size_t count, size_t size) {
    void *memory = size && count > SIZE_MAX / size ? NULL : taken(count * size);
    return memory ? memset(memory, 0, count * size) : NULL;
}

/* The new bytes lie above the old ones, so all that is read lies in the heap, whatever the old size was. */
OWN_GOES_FIRST void *realloc(void *memory, size_t size) {
    void *larger = malloc(size);
    return larger && memory ? memmove(larger, memory, size) : larger;
}

OWN_GOES_FIRST void free(void *memory) {
    (void)memory;
}

OWN_GOES_FIRST int abs(int number) {
    return number < 0 ? -number : number;
}

OWN_GOES_FIRST long labs(long number) {
    return number < 0 ? -number : number;
}

/* The value of a digit in a base, or the base itself. */
static unsigned digit_value(int character, unsigned base) {
    unsigned value = base;
    if (isdigit(character))
        value = character - '0';
    else if (isalpha(character))
        value = tolower(character) - 'a' + 10;
    return value < base ? value : base;
}

/* A number as it stands in a text: its magnitude, ULONG_MAX where it doesn't fit, and its sign. */
struct numeral {
    unsigned long magnitude;
    int negative, too_large;
    const char *end;
};

static struct numeral read_digits(const char *text, unsigned base) {
    struct numeral found = {0, 0, 0, text};
    for (; digit_value((unsigned char)*found.end, base) < base; found.end++) {
        unsigned value = digit_value((unsigned char)*found.end, base);
        found.too_large |= found.magnitude > (ULONG_MAX - value) / base;
        found.magnitude = found.magnitude * base + value;
    }
    if (found.too_large)
        found.magnitude = ULONG_MAX;
    return found;
}

static int has_prefix(const char *text) {
    return text[0] == '0' && (text[1] | 32) == 'x' && isxdigit((unsigned char)text[2]);
}

/* Where there are no digits, the end is the text's beginning. */
static struct numeral read_numeral(const char *text, int base) {
    const char *at = text;
    while (isspace((unsigned char)*at))
        at++;
    int negative = *at == '-';
    if (*at == '-' || *at == '+')
        at++;
    int prefix = (base == 0 || base == 16) && has_prefix(at);
    if (base == 0)
        base = prefix ? 16 : *at == '0' ? 8 : 10;
    const char *digits = prefix ? at + 2 : at;
    struct numeral found = read_digits(digits, base);
    found.negative = negative;
    if (found.end == digits)
        found.end = text;
    return found;
}

OWN_GOES_FIRST long strtol(const char *text, char **end, int base) {
    struct numeral found = read_numeral(text, base);
    if (end)
        *end = (char *)found.end;
    if (found.negative)
        return found.magnitude > LONG_MAX ? LONG_MIN : -(long)found.magnitude;
    return found.magnitude > LONG_MAX ? LONG_MAX : (long)found.magnitude;
}

OWN_GOES_FIRST unsigned long strtoul(const char *text, char **end, int base) {
    struct numeral found = read_numeral(text, base);
    if (end)
        *end = (char *)found.end;
    return found.negative && !found.too_large ? 0 - found.magnitude : found.magnitude;
}

OWN_GOES_FIRST long atol(const char *text) {
    return strtol(text, NULL, 10);
}

OWN_GOES_FIRST int atoi(const char *text) {
    return strtol(text, NULL, 10);
}

/* The generator of the C standard's text. */
static unsigned random_state = 1;

OWN_GOES_FIRST int rand(void) {
    random_state = random_state * 1103515245 + 12345;
    return random_state >> 16 & RAND_MAX;
}

OWN_GOES_FIRST void srand(unsigned seed) {
    random_state = seed;
}

OWN_GOES_FIRST void exit(int code) {
    exit_with(code);
}

/* A shell has this status of a native program that aborts. */
OWN_GOES_FIRST void abort(void) {
    exit_with(134);
}
