/* Calls both ways: order IMAGE, of order_plugin.c. The plug-in's qsort sorts by a function of the host, which calls a function
 * of the plug-in while that call waits; and the host's qsort sorts by the same function of the plug-in. */
#include "sfi_run_serve.h"
#include <stdio.h>
#include <stdlib.h>

enum { COUNT = 6 };

static struct sfi_run_world world = SFI_RUN_NO_WORLD;
static uint32_t numbers, sort, digit, compare; /* addresses */

static int by_digit(uint32_t a, uint32_t b);

static bool serve(struct sfi_run_world *of, uint32_t i, const struct sfi_run_event *call, void *context) {
    (void)context;
    return call->pc == compare && sfi_run_reply(of, i, (uint32_t)by_digit(call->a0, call->a1), call->a1);
}

/* The result of a function of one argument, also while a call of the plug-in waits. */
static int result_of(uint32_t function, uint32_t argument) {
    const uint32_t arguments[8] = {argument};
    uint64_t result;
    if (sfi_run_function(&world, 0, function, arguments, 100000, serve, NULL, &result) != SFI_RUN_RETURNED) {
        fprintf(stderr, "a function doesn't return\n");
        exit(1);
    }
    return (int)result;
}

static int by_digit(uint32_t a, uint32_t b) { return result_of(digit, a) - result_of(digit, b); }

static int of_both(const void *a, const void *b) { return by_digit(*(const uint32_t *)a, *(const uint32_t *)b); }

static void print(const uint32_t *items) {
    for (int k = 0; k < COUNT; k++)
        printf(k ? " %u" : "%u", (unsigned)items[k]);
    putchar('\n');
}

int main(int count, char **words) {
    static uint8_t image[1 << 20];
    uint32_t items[COUNT] = {17, 42, 93, 28, 5, 61}, sorted[COUNT];
    struct sfi_verdict verdict;
    FILE *file = count == 2 ? fopen(words[1], "rb") : NULL;
    size_t length = file ? fread(image, 1, sizeof image, file) : 0;
    if (sfi_run_load(image, length, &world, &verdict) != SFI_RUN_LOADED ||
        sfi_run_export(image, length, 0, "numbers", 7, &numbers) || sfi_run_export(image, length, 0, "sort", 4, &sort) ||
        sfi_run_export(image, length, 0, "digit", 5, &digit) || sfi_run_import(image, length, 0, "compare", 7, &compare)) {
        fprintf(stderr, "there is no plug-in that sorts\n");
        return 1;
    }
    sfi_run_stop(&world, 0);
    sfi_run_write(&world, 0, numbers, (const uint8_t *)items, sizeof items); /* little-endian, as the plug-in is */
    result_of(sort, COUNT);
    sfi_run_read(&world, 0, numbers, sizeof sorted, (uint8_t *)sorted, sizeof sorted);
    print(sorted);
    qsort(items, COUNT, sizeof *items, of_both);
    print(items);
    sfi_run_free(&world);
    return 0;
}
