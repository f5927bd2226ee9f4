/*
 * A host's own limits, below those of images' formats, before memory is asked for. Like sfi_run_serve.h this is the host's own code,
 * of which nothing is proved.
 *
 *     const struct sfi_run_sizes most = {1 << 20, 1 << 24}; // bytes of code and of data
 *     struct sfi_run_too_large found;
 *
 *     if (sfi_run_sizes_check(image, length, &most, &found) == SFI_RUN_SIZES_PASS)
 *         how = sfi_run_load(image, length, &world, &verdict);
 */
#ifndef SFI_RUN_SIZES_H
#define SFI_RUN_SIZES_H

#include <stddef.h>
#include <stdint.h>

/* The most bytes of code and of data that a host takes in a sandbox; UINT32_MAX for any number. */
struct sfi_run_sizes {
    uint32_t code;
    uint32_t data;
};

/* What becomes of an image by such limits. */
enum sfi_run_sizes_status {
    SFI_RUN_SIZES_PASS = 0,
    SFI_RUN_CODE_TOO_LARGE = 1, /* a sandbox has more bytes of code */
    SFI_RUN_DATA_TOO_LARGE = 2  /* or of data */
};

/* The first sandbox that has more than a host takes, what it has, and what the host takes. */
struct sfi_run_too_large {
    uint32_t sandbox;
    uint32_t size;
    uint32_t most;
};

/* The number whose four bytes, the lowest first, are there. */
static inline uint32_t sfi_run_sizes_number(const uint8_t *at) {
    return (uint32_t)at[0] | (uint32_t)at[1] << 8 | (uint32_t)at[2] << 16 | (uint32_t)at[3] << 24;
}

/* Whether each sandbox of an image has at most so many bytes; if not, `found` tells of the first that hasn't, and is left alone
 * else. Nothing else is looked at: of bytes that are no image nothing is said, and sfi_run_load refuses them. */
static inline enum sfi_run_sizes_status sfi_run_sizes_check(const uint8_t *image, size_t length, const struct sfi_run_sizes *most,
                                                            struct sfi_run_too_large *found) {
    enum { FRONT = 8, NUMBERS = 28, GATE = 8, SANDBOXES = 16 }; /* bytes; the most sandboxes of an image */
    const uint32_t count = length < FRONT ? 0 : sfi_run_sizes_number(image + 4);
    uint64_t at = FRONT;
    for (uint32_t number = 0; number < count && number < SANDBOXES && at + NUMBERS <= length; number++) {
        const uint8_t *fields = image + at;
        const uint32_t code = sfi_run_sizes_number(fields + 4), data = sfi_run_sizes_number(fields + 12);
        if (code > most->code || data > most->data) {
            found->sandbox = number;
            found->size = code > most->code ? code : data;
            found->most = code > most->code ? most->code : most->data;
            return code > most->code ? SFI_RUN_CODE_TOO_LARGE : SFI_RUN_DATA_TOO_LARGE;
        }
        at += (uint64_t)NUMBERS + (uint64_t)GATE * sfi_run_sizes_number(fields + 20) + code + sfi_run_sizes_number(fields + 24);
    }
    return SFI_RUN_SIZES_PASS;
}

#endif
