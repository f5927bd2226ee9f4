/*
 * What the tests in C of the library share: marks, which show what was not written, and the verdict that is wanted.
 */
#ifndef EXPECT_H
#define EXPECT_H

#include "sfi.h"
#include <stdio.h>
#include <stdlib.h>
#include <string.h>

enum { MARK = 0xa5, FIELDS = 8, MOST_LENGTH = 1 << 20 };

static int failures;

static void expect(int holds, const char *what, size_t at) {
    if (!holds) {
        printf("FAILED at %zu: %s\n", at, what);
        failures++;
    }
}

static int is_marked(const void *from, size_t size) {
    const unsigned char *bytes = from;
    for (size_t i = 0; i < size; i++)
        if (bytes[i] != MARK)
            return 0;
    return 1;
}

/* The bytes in memory of their own, so that valgrind sees a read after their end. */
static uint8_t *copy_of(const uint8_t *bytes, size_t length) {
    uint8_t *copy = malloc(length ? length : 1);
    if (!copy)
        exit(4);
    memcpy(copy, bytes, length);
    return copy;
}

/* The verdict whose fields these words are, in the order of the struct. */
static struct sfi_verdict verdict_of(char **words) {
    uint32_t fields[FIELDS];
    struct sfi_verdict verdict;
    for (int i = 0; i < FIELDS; i++)
        fields[i] = (uint32_t)strtoul(words[i], NULL, 0);
    memcpy(&verdict, fields, sizeof verdict);
    return verdict;
}

/* Of bytes that end before the image does. */
static const struct sfi_verdict cut_short = {SFI_NO_IMAGE, SFI_FAULT_SHORT, 0, 0, 0, {0, 0, 0}};

/* Says whether all was as expected, and is the exit status. */
static int ended(const char *name) {
    printf("%s: %s\n", name, failures ? "FAILED" : "passed");
    return failures != 0;
}

#endif
