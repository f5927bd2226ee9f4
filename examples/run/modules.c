/* One image that is decoded once, and many worlds of it: each allocation of a module and of an instance is refused in turn; then
 * threads run instances side by side, which are freed in another order than they were made, most of them after the module.
 *
 *     modules IMAGE STEPS    # linked with -Wl,--wrap=malloc,--wrap=realloc,--wrap=free, which leads the library's calls here
 *
 * Prints the steps of all instances, and ends in 1 where something isn't as sfi_run.h has it.
 */
#include "sfi_run.h"
#include <inttypes.h>
#include <pthread.h>
#include <stdatomic.h>
#include <stdio.h>
#include <stdlib.h>
#include <string.h>

enum { THREADS = 4, EACH = 5, ALL = THREADS * EACH, BYTES = 16 };

static uint8_t image[1 << 20];
static size_t length;
static uint32_t steps;
static struct sfi_run_module module = SFI_RUN_NO_MODULE;
static struct sfi_run_world worlds[ALL];
static atomic_uint_fast64_t live, tried, refused_from = UINT64_MAX; /* blocks of the library, and what asks for more gets none */

void *__real_malloc(size_t size);
void *__real_realloc(void *block, size_t size);
void __real_free(void *block);
void *__wrap_malloc(size_t size);
void *__wrap_realloc(void *block, size_t size);
void __wrap_free(void *block);

void *__wrap_malloc(size_t size) {
    void *block = tried++ >= refused_from ? NULL : __real_malloc(size);
    live += block != NULL;
    return block;
}

void *__wrap_realloc(void *block, size_t size) {
    return tried++ >= refused_from ? NULL : __real_realloc(block, size);
}

void __wrap_free(void *block) {
    live -= block != NULL;
    __real_free(block);
}

static void wanted(bool is_so, const char *what) {
    if (is_so)
        return;
    fprintf(stderr, "not so: %s\n", what);
    exit(1);
}

static uint32_t make_module(void) {
    struct sfi_verdict verdict;
    uint32_t status = sfi_run_module_new(image, length, &module, &verdict);
    wanted(verdict.status == SFI_ACCEPTED && verdict.sandboxes > 0, "the image is accepted");
    return status;
}

/* From each allocation on all are refused, until there are enough. */
static void refuse_each(void) {
    struct sfi_run_world world = SFI_RUN_NO_WORLD;
    wanted(!sfi_run_instance(&module, &world), "without a module there is no instance");
    for (uint64_t number = 0, is_made = false; !is_made; number++) {
        refused_from = tried + number;
        is_made = make_module() == SFI_RUN_LOADED;
        refused_from = UINT64_MAX;
        wanted(is_made || live == 0, "nothing is left of a module that isn't made");
    }
    const uint64_t before = live;
    for (uint64_t number = 0, is_made = false; !is_made; number++) {
        refused_from = tried + number;
        is_made = sfi_run_instance(&module, &world);
        refused_from = UINT64_MAX;
        wanted(is_made ? number > 0 && sfi_run_count(&world) > 0 : live == before && sfi_run_count(&world) == 0,
               "nothing is left of an instance that isn't made");
    }
    sfi_run_free(&world);
    wanted(live == before, "a freed instance gives all back that is its own");
}

/* An instance is as a world that is loaded, whatever became of the others. */
static void compare(struct sfi_run_world *world) {
    struct sfi_run_world loaded = SFI_RUN_NO_WORLD;
    struct sfi_verdict verdict;
    struct sfi_run_region data;
    struct sfi_run_registers one, other;
    uint8_t bytes[BYTES], others[BYTES];
    wanted(sfi_run_load(image, length, &loaded, &verdict) == SFI_RUN_LOADED, "the image is loaded");
    wanted(sfi_run_registers(world, 0, &one) && sfi_run_registers(&loaded, 0, &other) && memcmp(&one, &other, sizeof one) == 0,
           "the registers are those of a load");
    sfi_run_data(&loaded, 0, &data);
    wanted(sfi_run_read(world, 0, data.base, BYTES, bytes, BYTES) && sfi_run_read(&loaded, 0, data.base, BYTES, others, BYTES) &&
               memcmp(bytes, others, BYTES) == 0,
           "the data are those of a load");
    wanted(sfi_run_steps(world, 0) == 0, "no step is done");
    memset(bytes, 0xa5, BYTES);
    wanted(sfi_run_write(world, 0, data.base, bytes, BYTES), "the data can be written");
    wanted(sfi_run_reset(world, 0) && sfi_run_read(world, 0, data.base, BYTES, bytes, BYTES) && memcmp(bytes, others, BYTES) == 0,
           "a reset takes the data back");
    wanted(sfi_run_write(world, 0, data.base, bytes, BYTES), "the data can be written again");
    sfi_run_free(&loaded);
}

/* Runs a thread's instances, with each call answered by its own words, and frees all but the first. */
static void *run(void *first) {
    struct sfi_run_world *mine = first;
    struct sfi_run_event event;
    for (int k = 0; k < EACH; k++)
        while (sfi_run_steps(&mine[k], 0) < steps) {
            uint32_t kind = sfi_run_turn(&mine[k], 0, steps - (uint32_t)sfi_run_steps(&mine[k], 0), &event);
            if (kind == SFI_RUN_CALL ? !sfi_run_reply(&mine[k], 0, event.a0, event.a1) : kind != SFI_RUN_READY)
                break;
        }
    for (int k = EACH - 1; k > 0; k--) {
        wanted(sfi_run_steps(&mine[k], 0) == sfi_run_steps(&mine[0], 0), "each does the same");
        sfi_run_free(&mine[k]);
    }
    return NULL;
}

int main(int count, char **words) {
    pthread_t threads[THREADS];
    uint64_t done = 0;
    FILE *file = count == 3 ? fopen(words[1], "rb") : NULL;
    wanted(file != NULL, "there is an image");
    length = fread(image, 1, sizeof image, file);
    fclose(file);
    steps = (uint32_t)atol(words[2]);
    refuse_each();
    for (int k = 0; k < ALL; k++) {
        wanted(sfi_run_instance(&module, &worlds[k]), "there is memory");
        compare(&worlds[k]);
    }
    sfi_run_module_free(&module);
    sfi_run_module_free(&module);
    for (int k = 0; k < THREADS; k++)
        wanted(pthread_create(&threads[k], NULL, run, &worlds[k * EACH]) == 0, "there is a thread");
    for (int k = 0; k < THREADS; k++)
        pthread_join(threads[k], NULL);
    for (int k = 0; k < ALL; k += EACH) {
        done += sfi_run_steps(&worlds[k], 0);
        sfi_run_free(&worlds[k]);
    }
    wanted(live == 0, "the last instance gives all back");
    printf("%" PRIu64 " steps\n", done);
    return 0;
}
