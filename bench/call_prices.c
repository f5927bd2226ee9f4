/* What calls cost (call_prices.py): prints the nanoseconds of a plain call of add(2, 3) by a pointer, and of a call of a sandbox's `add`, and of
   its `doubled`, which asks the host once: by libsfi_run_native, or with -DWASM of the code that wasm2c made. */
#include <stdint.h>
#include <stdio.h>
#include <stdlib.h>
#include <time.h>

enum { TIMES = 2000000, ROUNDS = 9 };
static volatile uint32_t seen;

static uint32_t plain_add(uint32_t a, uint32_t b) {
    return a + b;
}
static uint32_t (*volatile plain)(uint32_t, uint32_t) = plain_add;

#ifdef WASM
#include "calls.h"
static Z_calls_instance_t instance;

u32 Z_hostZ_asked(struct Z_host_instance_t *host, u32 a, u32 b) {
    (void)host;
    return a + b;
}

static void load(const char *path) {
    (void)path;
    wasm_rt_init();
    Z_calls_init_module();
    Z_calls_instantiate(&instance, NULL);
}

static uint32_t add(void) {
    return Z_callsZ_add(&instance, 2, 3);
}

static uint32_t doubled(void) {
    return Z_callsZ_doubled(&instance, 2, 3);
}
#else
#include "sfi_run.h"
static struct sfi_run_world world = SFI_RUN_NO_WORLD;
static uint32_t addresses[2];

static void load(const char *path) {
    static uint8_t image[1 << 16];
    struct sfi_verdict verdict;
    FILE *const file = fopen(path, "rb");
    const size_t length = file == NULL ? 0 : fread(image, 1, sizeof image, file);
    if (sfi_run_load(image, length, &world, &verdict) != SFI_RUN_LOADED)
        exit(1);
    sfi_run_export(image, length, 0, "add", 3, &addresses[0]);
    sfi_run_export(image, length, 0, "doubled", 7, &addresses[1]);
    sfi_run_stop(&world, 0);
}

/* Calls a function, and serves its call. */
static uint32_t called(uint32_t address, int asks) {
    static const uint32_t arguments[8] = {2, 3};
    struct sfi_run_event event;
    sfi_run_call(&world, 0, address, arguments, 1000, &event);
    if (asks) {
        sfi_run_reply(&world, 0, event.a0 + event.a1, 0);
        sfi_run_turn(&world, 0, 1000, &event);
    }
    sfi_run_exit(&world, 0, event.a0);
    return event.a0;
}

static uint32_t add(void) {
    return called(addresses[0], 0);
}

static uint32_t doubled(void) {
    return called(addresses[1], 1);
}
#endif

static uint32_t call_plain(void) {
    return plain(2, 3);
}

/* The least nanoseconds of processor time of one of many calls, whose answer has to be right. */
static double nanoseconds(uint32_t (*function)(void), uint32_t answer) {
    struct timespec begun, ended;
    double least = 1e9;
    for (int round = 0; round < ROUNDS; round++) {
        clock_gettime(CLOCK_PROCESS_CPUTIME_ID, &begun);
        for (int k = 0; k < TIMES; k++)
            seen = function();
        clock_gettime(CLOCK_PROCESS_CPUTIME_ID, &ended);
        const double one = ((double)(ended.tv_sec - begun.tv_sec) * 1e9 + (double)(ended.tv_nsec - begun.tv_nsec)) / TIMES;
        least = one < least ? one : least;
    }
    if (seen != answer)
        exit(2);
    return least;
}

int main(int count, char **words) {
    load(count > 1 ? words[1] : "");
    printf("%.1f %.1f %.1f\n", nanoseconds(call_plain, 5), nanoseconds(add, 5), nanoseconds(doubled, 10));
    return 0;
}
