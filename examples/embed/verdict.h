/* What the hosts in C share: the words of a verdict, and numbers of a command line. */
#ifndef VERDICT_H
#define VERDICT_H

#include "sfi.h"
#include <ctype.h>
#include <inttypes.h>
#include <stdio.h>
#include <stdlib.h>

/* Prints the verdict as `sfi check` does, without the name of a layout's fault and without a line feed. */
static inline void print_verdict(const struct sfi_verdict *verdict) {
    switch (verdict->status) {
    case SFI_ACCEPTED:
        printf("accepted sandboxes=%" PRIu32 " bundles=%" PRIu32, verdict->sandboxes, verdict->bundles);
        break;
    case SFI_REFUSED:
        printf("refused findings=%" PRIu32 " first=V%" PRIu32 " sandbox=%" PRIu32 " at=%08" PRIx32, verdict->findings,
               verdict->first.rule, verdict->first.sandbox, verdict->first.address);
        break;
    case SFI_NO_IMAGE:
        printf("layout fault %" PRIu32, verdict->layout_fault);
        break;
    }
}

/* The number that the word's digits make; -1 where it isn't one from the least to the most. */
static inline long number_of(const char *word, long least, long most) {
    char *end;
    long number = strtol(word, &end, 10);
    return isdigit((unsigned char)*word) && !*end && least <= number && number <= most ? number : -1;
}

#endif
