/* A plug-in in C that is called as a function: words.s is a source text of it.
 * Its main exits with the address of a table: which functions the host may enter, and where it may put a text. */
#include "gates.h"

unsigned price(unsigned words, unsigned letters); /* a gate: the host's answer */

static int is_letter(char it) {
    return (it | 32) >= 'a' && (it | 32) <= 'z';
}

/* Begins each word with a capital letter, and returns the price. */
static unsigned capitalize(char *at, unsigned length) {
    unsigned words = 0, letters = 0;
    for (unsigned k = 0; k < length; k++)
        if (is_letter(at[k])) {
            letters++;
            if (k == 0 || !is_letter(at[k - 1])) {
                at[k] &= ~32;
                words++;
            }
        }
    return price(words, letters);
}

/* Never ends, and calls the host all the while. */
static void ask_forever(void) {
    for (;;)
        price(0, 0);
}

static char text[256];

static const struct {
    unsigned (*capitalize)(char *, unsigned);
    void (*ask_forever)(void);
    char *text;
    unsigned room;
} table = {capitalize, ask_forever, text, sizeof text};

int main(void) {
    return (int)&table;
}
