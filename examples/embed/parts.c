/*
 * Checks the image on standard input, and where it is accepted tells what is in it:
 *
 *     parts < IMAGE        # the image's own bytes
 *
 * Of each sandbox it prints the line of `sfi dis`, then its format and where its code and first data bytes lie in the
 * image, then each of its gates. It ends in the verdict's status; or in 5 where the image can't be read or is too long.
 */
#include "sfi.h"
#include <inttypes.h>
#include <stdio.h>

static void print_part(uint32_t number, const struct sfi_part *part) {
    printf("sandbox %" PRIu32 " code %08" PRIx32 " %" PRIu32 " data %08" PRIx32 " %" PRIu32, number, part->code_base,
           part->code_size, part->data_base, part->data_size);
    printf(" start %08" PRIx32 " gates %" PRIu32 " init %" PRIu32 "\n", part->start, part->gates, part->init_size);
    printf("bytes format %" PRIu32 " code %lu init %lu\n", part->format, (unsigned long)part->code_offset,
           (unsigned long)part->init_offset);
}

int main(void) {
    static uint8_t image[64 << 20]; /* more than the longest right image */
    size_t length = fread(image, 1, sizeof image, stdin);
    if (length == sizeof image || ferror(stdin))
        return 5;
    struct sfi_verdict verdict;
    if (sfi_c_check(image, length, &verdict) != SFI_ACCEPTED)
        return (int)verdict.status;
    struct sfi_part part;
    for (uint32_t number = 0; sfi_c_part(image, length, number, &part) == SFI_FOUND; number++) {
        print_part(number, &part);
        struct sfi_gate gates[64]; /* no sandbox has more */
        sfi_c_gates(image, length, number, gates, 64);
        for (uint32_t index = 0; index < part.gates; index++)
            printf("gate %08" PRIx32 " %" PRIu32 "\n", gates[index].address, gates[index].service);
    }
    return SFI_ACCEPTED;
}
