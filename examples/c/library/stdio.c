/* getchar, putchar and puts of stdio.h. printing.c has the rest. */
#include "library.h"
#include "../gates.h"
#include <stdio.h>
#include <string.h>

enum { MOST = 65536 }; /* bytes of a put */

/* Input is read in pieces, and handed out by characters. */
static unsigned char input[256];
static long taken, held;

OWN_GOES_FIRST int getchar(void) {
    if (taken == held) {
        taken = 0;
        held = get(input, sizeof input);
    }
    if (held <= 0) {
        held = 0;
        return EOF;
    }
    return input[taken++];
}

OWN_GOES_FIRST int putchar(int character) {
    unsigned char byte = character;
    return put(&byte, 1) == 1 ? byte : EOF;
}

OWN_GOES_FIRST int puts(const char *text) {
    size_t rest = strlen(text);
    for (; rest > MOST; rest -= MOST, text += MOST)
        if (put(text, MOST) < 0)
            return EOF;
    return put(text, rest) < 0 || put("\n", 1) < 0 ? EOF : 0;
}
