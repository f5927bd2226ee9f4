/* A host's own limits, by sfi_run_sizes.h, on the bytes of an image that are spelled here as docs/IMAGE.md has them, and on each
 * front of them. Prints "all is so", or what isn't. */
#include "sfi_run_sizes.h"
#include <stdbool.h>
#include <stdio.h>
#include <stdlib.h>
#include <string.h>

enum { CODE = 0x01000000, DATA = 0x01800000, GATES = 2, FIRST = 3 };

static const struct sfi_run_sizes sandboxes[] = {{256, 4096}, {1024, 1 << 22}};
static uint8_t image[4096];
static size_t length;

static void wanted(bool is_so, const char *what) {
    if (is_so)
        return;
    printf("not so: %s\n", what);
    exit(1);
}

static void put(uint32_t number) {
    for (int k = 0; k < 4; k++)
        image[length++] = (uint8_t)(number >> 8 * k);
}

/* Two sandboxes, whose code is 16-bit ebreaks, with two gates and three first data bytes each. */
static void make(void) {
    memcpy(image, "SFIW", 4);
    length = 4;
    put(2);
    for (uint32_t number = 0; number < 2; number++) {
        const uint32_t code = sandboxes[number].code, base = CODE * (number + 1);
        const uint32_t fields[] = {base, code, base + DATA - CODE, sandboxes[number].data, base, GATES, FIRST, base, 0, base + 16, 1};
        for (size_t k = 0; k < sizeof fields / sizeof *fields; k++)
            put(fields[k]);
        for (uint32_t k = 0; k < code; k++)
            image[length++] = k % 2 ? 0x90 : 0x02;
        for (int k = 0; k < FIRST; k++)
            image[length++] = 1;
    }
}

/* With these limits the first `size` bytes pass. */
static void passes(size_t size, uint32_t code, uint32_t data, const char *what) {
    const struct sfi_run_sizes most = {code, data};
    struct sfi_run_too_large found = {7, 8, 9};
    wanted(sfi_run_sizes_check(image, size, &most, &found) == SFI_RUN_SIZES_PASS, what);
    wanted(found.sandbox == 7 && found.size == 8 && found.most == 9, "what is found is left alone");
}

/* With these limits the image is refused so, for a sandbox that has so many bytes, of which so many are taken. */
static void is_refused(uint32_t code, uint32_t data, enum sfi_run_sizes_status status, struct sfi_run_too_large why, const char *what) {
    const struct sfi_run_sizes most = {code, data};
    struct sfi_run_too_large found;
    wanted(sfi_run_sizes_check(image, length, &most, &found) == status, what);
    wanted(found.sandbox == why.sandbox && found.size == why.size && found.most == why.most, what);
}

int main(void) {
    make();
    passes(length, UINT32_MAX, UINT32_MAX, "any sizes");
    passes(length, 1024, 1 << 22, "just so many bytes");
    is_refused(1023, UINT32_MAX, SFI_RUN_CODE_TOO_LARGE, (struct sfi_run_too_large){1, 1024, 1023}, "code of the second");
    is_refused(UINT32_MAX, 4096, SFI_RUN_DATA_TOO_LARGE, (struct sfi_run_too_large){1, 1 << 22, 4096}, "data of the second");
    is_refused(255, 4095, SFI_RUN_CODE_TOO_LARGE, (struct sfi_run_too_large){0, 256, 255}, "code of the first, and its data");
    is_refused(256, 4095, SFI_RUN_DATA_TOO_LARGE, (struct sfi_run_too_large){0, 4096, 4095}, "data of the first");
    for (size_t size = 0; size <= length; size++)
        passes(size, 1024, 1 << 22, "each front");
    for (size_t size = 0; size < 36; size++)
        passes(size, 0, 0, "what ends before the first sandbox's numbers");
    memset(image + 4, 0xFF, length - 4);
    passes(length, UINT32_MAX, UINT32_MAX, "numbers as large as can be");
    puts("all is so");
}
