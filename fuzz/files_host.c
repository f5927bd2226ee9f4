/* The host of sfi_run_files.h for fuzz/files.py: a sandbox is its data alone, which the script hands over with each call. */
#define _POSIX_C_SOURCE 200809L
#include "sfi_run_files.h"

enum { BASE = 0x01800000, SIZE = 1 << 16 };
static struct sfi_run_files files;
static uint8_t *bytes;
static uint32_t answer, answers;

static bool is_inside(uint32_t at, size_t length) {
    return length == 0 || (at >= BASE && (uint64_t)at + length <= BASE + SIZE);
}

bool sfi_run_read(struct sfi_run_world *world, uint32_t sandbox, uint32_t at, size_t length, uint8_t *to, size_t room) {
    (void)world, (void)sandbox;
    if (length > room || !is_inside(at, length))
        return false;
    if (length)
        memcpy(to, bytes + (at - BASE), length);
    return true;
}

bool sfi_run_write(struct sfi_run_world *world, uint32_t sandbox, uint32_t at, const uint8_t *from, size_t length) {
    (void)world, (void)sandbox;
    if (is_inside(at, length) && length)
        memcpy(bytes + (at - BASE), from, length);
    return is_inside(at, length);
}

bool sfi_run_data(struct sfi_run_world *world, uint32_t sandbox, struct sfi_run_region *region) {
    (void)world, (void)sandbox;
    *region = (struct sfi_run_region){BASE, SIZE};
    return true;
}

bool sfi_run_reply(struct sfi_run_world *world, uint32_t sandbox, uint32_t a0, uint32_t a1) {
    (void)world, (void)sandbox, (void)a1;
    answer = a0;
    answers++;
    return true;
}

bool sfi_run_exit(struct sfi_run_world *world, uint32_t sandbox, uint32_t number) {
    (void)world, (void)sandbox, (void)number;
    return true;
}

/* What the script calls. */
int host_open(const char *work, const char *dictionary, const char *within, uint32_t growth, uint32_t entries, const int standard[3]) {
    const struct sfi_run_folder folders[] = {{work, "/work", false}, {dictionary, "/dict", true}, {within, "/kept", true}};
    const int why = sfi_run_files_open(&files, 0, folders, 3);
    files.growth_most = growth;
    files.entries_most = entries;
    memcpy(files.standard, standard, sizeof files.standard);
    return why;
}

void host_close(void) {
    sfi_run_files_close(&files);
}

uint32_t host_call(const uint32_t words[8], uint8_t *data) {
    const struct sfi_run_event call = {.kind = SFI_RUN_CALL, .number = 3, .a0 = words[0], .a1 = words[1], .a2 = words[2], .a3 = words[3],
                                       .a4 = words[4], .a5 = words[5], .a6 = words[6], .a7 = words[7]};
    bytes = data;
    answers = 0;
    sfi_run_files_serve(NULL, 0, &call, &files);
    return answers == 1 ? answer : 0;
}
