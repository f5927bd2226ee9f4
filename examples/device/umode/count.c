/* Counts the instructions of the host from a trap of a sandbox to where one goes on, beside either main. */
#include "../sections.h"

static uint32_t shortest, longest;

static void note_section(uint32_t instructions) {
    if (shortest == 0 || instructions < shortest)
        shortest = instructions;
    if (instructions > longest)
        longest = instructions;
}

void print_masked(void) {
    print("host: shortest=");
    print_decimal(shortest);
    print(" longest=");
    print_decimal(longest);
    print("\n");
}
