/*
 * Checks the image on standard input, and lists its first findings:
 *
 *     host [CAPACITY] < IMAGE        # the image's own bytes; room for CAPACITY findings, 2 if absent
 *
 * It ends in the verdict's status; or in 4 where there is no room, 5 where the image can't be read or is too long, 6 where
 * CAPACITY is no number from 0 to 8388608, which is as many findings as an image can have.
 */
#include "verdict.h"

static void print_finding(struct sfi_finding found) {
    printf("%" PRIu32 " %08" PRIx32 " V%" PRIu32 "\n", found.sandbox, found.address, found.rule);
}

int main(int argc, char **argv) {
    static uint8_t image[64 << 20]; /* more than the longest right image */
    size_t length = fread(image, 1, sizeof image, stdin);
    if (length == sizeof image || ferror(stdin))
        return 5;
    long capacity = argc > 1 ? number_of(argv[1], 0, 8388608) : 2;
    if (capacity < 0)
        return 6;
    struct sfi_finding *found = calloc((size_t)capacity + 1, sizeof *found); /* not NULL, also for none */
    struct sfi_verdict verdict;
    if (!found)
        return 4;
    sfi_c_findings(image, length, found, (size_t)capacity, &verdict);
    for (size_t i = 0; i < verdict.findings && i < (size_t)capacity; i++)
        print_finding(found[i]);
    print_verdict(&verdict);
    putchar('\n');
    free(found);
    return (int)verdict.status;
}
