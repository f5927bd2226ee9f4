/* What the hosts here share: an image is read from a file, checked and loaded. */
#include "sfi_run_serve.h"
#include <stdio.h>
#include <stdlib.h>

/* Loads the image in a file; where that can't be done, says why and ends in sfi_run_load's status, in 5 or in 6. */
static inline void load_file(const char *name, struct sfi_run_world *world) {
    static uint8_t image[1 << 26]; /* more than the longest right image */
    struct sfi_verdict verdict;
    if (sfi_run_version() / 256 != SFI_RUN_VERSION_NUMBER / 256) {
        fprintf(stderr, "the library is of another version than its header\n");
        exit(6);
    }
    FILE *file = fopen(name, "rb");
    size_t length = file ? fread(image, 1, sizeof image, file) : 0;
    if (!file || ferror(file) || length == sizeof image) {
        fprintf(stderr, "%s can't be read\n", name);
        exit(5);
    }
    fclose(file);
    uint32_t status = sfi_run_load(image, length, world, &verdict);
    if (status == SFI_RUN_REFUSED)
        fprintf(stderr, "%s breaks V%u in sandbox %u at %08x\n", name, (unsigned)verdict.first.rule,
                (unsigned)verdict.first.sandbox, (unsigned)verdict.first.address);
    else if (status == SFI_RUN_NO_IMAGE)
        fprintf(stderr, "%s is no image: layout fault %u\n", name, (unsigned)verdict.layout_fault);
    else if (status == SFI_RUN_NO_MEMORY)
        fprintf(stderr, "%s needs more memory\n", name);
    if (status != SFI_RUN_LOADED)
        exit((int)status);
}
