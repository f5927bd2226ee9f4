/* For any place: reports, and puts two texts by a table of their addresses and one of functions'. */
#include "gates.h"

unsigned report(void);

static const char *const texts[] = {"one", "two"};

static void put_three(unsigned number) {
    put(texts[number], 3);
}

static void (*const functions[])(unsigned) = {put_three, put_three};

int main(void) {
    unsigned number;
    report();
    for (number = 0; number < sizeof texts / sizeof *texts; number++)
        functions[number](number);
    for (;;)
        yield_turn();
}
