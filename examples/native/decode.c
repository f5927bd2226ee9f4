/* Reads words of four bytes, and prints of each the row of the instruction that begins with them (sfi_native_decode.h) at the
   address PC: kind, bytes, rd, rs1, rs2 and number; `none` where there is none.

       decode PC < WORDS */
#include <stdio.h>
#include <stdlib.h>
#include "sfi_native_decode.h"

#define NAME(kind) #kind,
static const char *const names[] = { SFI_COMPUTATIONS(NAME) SFI_IMMEDIATES(NAME) SFI_LOADS(NAME) SFI_STORES(NAME) SFI_BRANCHES(NAME)
    "jal", "jalr", "lui", "auipc", "fence", "ecall", "ebreak" };

int main(int count, char **words) {
    uint8_t word[4];
    if (count != 2)
        return 3;
    const sfi_u32 pc = (sfi_u32)strtoul(words[1], NULL, 16);
    while (fread(word, 1, sizeof word, stdin) == sizeof word) {
        const struct sfi_row row = sfi_decode(word, pc);
        if (row.size == 0)
            printf("none\n");
        else
            printf("%s %u %u %u %u %u\n", names[row.kind], row.size, row.rd, row.rs1, row.rs2, (unsigned)row.number);
    }
    return 0;
}
