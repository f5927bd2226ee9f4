/* What world_counts.py measures.
 *
 *     world_counts IMAGE bytes TIMES 0          # prints the bytes that malloc has given out for TIMES worlds of the image
 *     world_counts IMAGE beside TIMES 0         # the same of worlds of one module, beside the module
 *     world_counts IMAGE resident TIMES 0       # prints by how many bytes TIMES such worlds make the process's resident memory grow
 *     world_counts IMAGE load TIMES 0           # the image is loaded TIMES times
 *     world_counts IMAGE instance TIMES 0       # TIMES worlds are made of one module
 *     world_counts IMAGE call TIMES STEPS       # TIMES turns of at most STEPS steps, and each call gets a reply
 *     world_counts IMAGE read TIMES LENGTH      # LENGTH bytes of its data are read, TIMES times
 *     world_counts IMAGE write TIMES LENGTH     # they are written
 *     world_counts IMAGE zero TIMES 0           # it is reset, TIMES times
 *
 * It ends in 0, or in 1 where something isn't as it has to be.
 */
#include "sfi_run.h"
#include <malloc.h>
#include <stdio.h>
#include <stdlib.h>
#include <string.h>
#include <unistd.h>

enum { MOST = 4096 };

static uint8_t image[1 << 22], bytes[1 << 20];
static size_t length;
static struct sfi_run_world worlds[MOST];
static struct sfi_run_module module = SFI_RUN_NO_MODULE;

/* What malloc has given out, with what it adds to each block. */
static size_t given(void) {
    struct mallinfo2 info = mallinfo2();
    return info.uordblks + info.hblkhd;
}

static void must(int is);

/* What the process has resident. */
static size_t resident(void) {
    unsigned long all, here;
    FILE *file = fopen("/proc/self/statm", "r");
    must(file != NULL && fscanf(file, "%lu %lu", &all, &here) == 2 && fclose(file) == 0);
    return here * (size_t)sysconf(_SC_PAGESIZE);
}

static void must(int is) {
    if (!is)
        exit(1);
}

static void load(struct sfi_run_world *world) {
    struct sfi_verdict verdict;
    must(sfi_run_load(image, length, world, &verdict) == SFI_RUN_LOADED);
}

static void make_module(void) {
    struct sfi_verdict verdict;
    must(sfi_run_module_new(image, length, &module, &verdict) == SFI_RUN_LOADED);
}

static void instance(struct sfi_run_world *world) {
    must(sfi_run_instance(&module, world));
}

static void measure_bytes(long times, void (*make)(struct sfi_run_world *), size_t (*size)(void)) {
    must(times <= MOST);
    make_module();
    size_t before = size();
    for (long k = 0; k < times; k++)
        make(&worlds[k]);
    printf("%zu\n", size() - before);
    for (long k = 0; k < times; k++)
        sfi_run_free(&worlds[k]);
    sfi_run_module_free(&module);
}

static void call(struct sfi_run_world *world, uint32_t steps) {
    struct sfi_run_event event;
    must(sfi_run_turn(world, 0, steps, &event) == SFI_RUN_CALL);
    must(sfi_run_reply(world, 0, event.a0, event.a1));
}

static void repeat(const char *what, long times, uint32_t number) {
    struct sfi_run_world world = SFI_RUN_NO_WORLD;
    struct sfi_run_region data;
    load(&world);
    make_module();
    must(sfi_run_data(&world, 0, &data));
    for (long k = 0; k < times; k++)
        switch (what[0]) {
        case 'l': load(&world); break;
        case 'i': instance(&world); break;
        case 'c': call(&world, number); break;
        case 'r': must(sfi_run_read(&world, 0, data.base, number, bytes, sizeof bytes)); break;
        case 'w': must(sfi_run_write(&world, 0, data.base, bytes, number)); break;
        case 'z': must(sfi_run_reset(&world, 0)); break;
        default: exit(1);
        }
    sfi_run_free(&world);
    sfi_run_module_free(&module);
}

int main(int count, char **words) {
    must(count == 5);
    FILE *file = fopen(words[1], "rb");
    must(file != NULL);
    length = fread(image, 1, sizeof image, file);
    must(fclose(file) == 0 && length < sizeof image);
    long times = atol(words[3]);
    if (strcmp(words[2], "bytes") == 0)
        measure_bytes(times, load, given);
    else if (strcmp(words[2], "beside") == 0)
        measure_bytes(times, instance, given);
    else if (strcmp(words[2], "resident") == 0)
        measure_bytes(times, instance, resident);
    else
        repeat(words[2], times, (uint32_t)atol(words[4]));
    return 0;
}
