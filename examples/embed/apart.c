/*
 * sfi_c_apart beside what its words ask for: a row for each way to lie apart or to meet. Ends in 1 after a line for each row
 * that is wrong.
 */
#include "sfi.h"
#include <stdio.h>

/* Its data's guard zones reach from 80400000 to 80403000. */
static const struct sfi_part one = {
    .format = 3, .code_base = 0x80110000, .code_size = 0x1000, .data_base = 0x80401000, .data_size = 0x1000};

static const struct {
    uint32_t code_base, code_size, data_base, data_size;
    bool is_apart;
} rows[] = {
    {0x80111000, 0x1000, 0x80404000, 0x1000, true},     /* beside it, above */
    {0x8010f000, 0x1000, 0x803fe000, 0x1000, true},     /* beside it, below */
    {0x80110000, 0x1000, 0x90000000, 0x1000, false},    /* the same code */
    {0x90000000, 0x1000, 0x80401000, 0x1000, false},    /* the same data */
    {0x80110ff0, 0x1000, 0x90000000, 0x1000, false},    /* code in code, at each end */
    {0x8010f010, 0x1000, 0x90000000, 0x1000, false},
    {0x80000000, 0x800000, 0x90000000, 0x1000, false},  /* code around all of it */
    {0x80110100, 0x100, 0x90000000, 0x1000, false},     /* code within its code */
    {0x90000000, 0x1000, 0x80403ff0, 0x1000, false},    /* guard zones in guard zones, at each end */
    {0x90000000, 0x1000, 0x803fe010, 0x1000, false},
    {0x90000000, 0x1000, 0x80402000, 0x100, false},     /* data in a guard zone */
    {0x90000000, 0x1000, 0x80400f00, 0x100, false},
    {0x80403000, 0x1000, 0x90000000, 0x1000, true},     /* code at and in a guard zone, at each end */
    {0x80402ff0, 0x1000, 0x90000000, 0x1000, false},
    {0x803ff000, 0x1000, 0x90000000, 0x1000, true},
    {0x803ff010, 0x1000, 0x90000000, 0x1000, false},
    {0x90000000, 0x1000, 0x80112000, 0x1000, true},     /* a guard zone at and in its code, at each end */
    {0x90000000, 0x1000, 0x80111ff0, 0x1000, false},
    {0x90000000, 0x1000, 0x8010e000, 0x1000, true},
    {0x90000000, 0x1000, 0x8010e010, 0x1000, false},
    {0x90000000, 0x1000, 0x80000000, 0x800000, false},  /* data around all of it */
    {0xfffff000, 0x1000, 0x00001000, 0x1000, true},     /* both ends of the addresses */
    {0x80110800, 0, 0x90000000, 0, true},               /* nothing, within its code */
    {0x90000000, 0x1000, 0x80401800, 0, false},         /* no data, but guard zones within its data */
    {0xffffffff, 0xffffffff, 0xffffffff, 0xffffffff, true}, /* sizes that no sandbox has */
    {0, 0xffffffff, 0, 0, false},
    {0x90000000, 0x1000, 0, 0xffffffff, false},
};

/* Sandboxes of the fourth format, and of a number that no format has, beside it: its code and data lie above their zones at zero,
   or in one of these. */
static const struct {
    uint32_t format, data_size;
    bool is_apart;
} zones[] = {
    {4, 0x1000, true},      {4, 0x80000000, true},  {4, 0x8010f000, true}, /* its zone at zero ends where the other's code begins */
    {4, 0x8010f010, false}, {0, 0x8010f010, false}, {5, 0x8010f010, false},
    {3, 0x8010f010, true},  {1, 0x8010f010, true},
};

int main(void) {
    int wrong = 0;
    for (size_t k = 0; k < sizeof zones / sizeof zones[0]; k++) {
        /* its data lie nowhere that matters: above all else, as far as they have room */
        const struct sfi_part other = {.format = zones[k].format, .code_base = 0xc0000000, .code_size = 0x1000,
                                       .data_base = 0xd0000000, .data_size = zones[k].data_size};
        if (sfi_c_apart(&one, &other) == zones[k].is_apart && sfi_c_apart(&other, &one) == zones[k].is_apart)
            continue;
        printf("zone %zu\n", k);
        wrong = 1;
    }
    for (size_t k = 0; k < sizeof rows / sizeof rows[0]; k++) {
        const struct sfi_part other = {.format = 3, .code_base = rows[k].code_base, .code_size = rows[k].code_size,
                                       .data_base = rows[k].data_base, .data_size = rows[k].data_size};
        if (sfi_c_apart(&one, &other) == rows[k].is_apart && sfi_c_apart(&other, &one) == rows[k].is_apart)
            continue;
        printf("row %zu\n", k);
        wrong = 1;
    }
    return wrong;
}
