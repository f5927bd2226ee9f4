/* Calls a function of a plug-in by its name, unless the image claims that it takes or answers something else: add IMAGE */
#include "sfi_run_serve.h"
#include <stdio.h>

int main(int count, char **words) {
    static uint8_t image[1 << 20];
    struct sfi_run_world world = SFI_RUN_NO_WORLD;
    struct sfi_verdict verdict;
    char signature[SFI_RUN_NAME_MOST] = "(ii)i"; /* where none is claimed */
    uint32_t add;
    uint64_t sum;
    FILE *file = count == 2 ? fopen(words[1], "rb") : NULL;
    size_t length = file ? fread(image, 1, sizeof image, file) : 0;
    if (sfi_run_load(image, length, &world, &verdict) != SFI_RUN_LOADED ||
        sfi_run_export(image, length, 0, "add", 3, &add) != SFI_RUN_NAMES_FOUND) {
        fprintf(stderr, "there is no plug-in with a function add\n");
        return 1;
    }
    sfi_run_signature(image, length, 0, SFI_RUN_EXPORTS, "add", signature);
    if (strcmp(signature, "(ii)i") != 0) {
        fprintf(stderr, "add has the signature %s\n", signature);
        return 1;
    }
    sfi_run_stop(&world, 0);
    if (sfi_run_function(&world, 0, add, (uint32_t[8]){2, 3}, 1000, NULL, NULL, &sum) == SFI_RUN_RETURNED)
        printf("%u\n", (unsigned)sum);
    sfi_run_free(&world);
    return 0;
}
