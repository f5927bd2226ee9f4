/* What the library does with memory: each allocation of a load is refused in turn; then come random sessions, in which the
 * blocks that it takes and gives back are counted.
 *
 *     memory IMAGE ..    # linked with -Wl,--wrap=malloc,--wrap=realloc,--wrap=free, which leads its calls here
 *
 * Prints what became of the images, and ends in 1 where something isn't as sfi_run.h has it.
 */
#include "sfi_run.h"
#include <inttypes.h>
#include <stdio.h>
#include <stdlib.h>
#include <string.h>

enum { IMAGES = 64, WORLDS = 3, SESSIONS = 40, CALLS = 500 };

static struct image {
    uint8_t *bytes;
    size_t length;
    uint32_t status;
} images[IMAGES];
static uint32_t given, of_status[4];
static struct sfi_run_world worlds[WORLDS];
static uint64_t taken, tried, live; /* blocks of the library: calls that took or gave one, that asked, and what it has */
static uint64_t refused_from = UINT64_MAX, refused_to = UINT64_MAX; /* the numbers of those that get nothing */

void *__real_malloc(size_t size);
void *__real_realloc(void *block, size_t size);
void __real_free(void *block);
void *__wrap_malloc(size_t size);
void *__wrap_realloc(void *block, size_t size);
void __wrap_free(void *block);

static bool is_refused(void) {
    uint64_t number = tried++;
    return number >= refused_from && number < refused_to;
}

void *__wrap_malloc(size_t size) {
    void *block = is_refused() ? NULL : __real_malloc(size);
    taken++, live += block != NULL;
    return block;
}

void *__wrap_realloc(void *block, size_t size) {
    taken++;
    return is_refused() ? NULL : __real_realloc(block, size);
}

void __wrap_free(void *block) {
    taken++, live -= block != NULL;
    __real_free(block);
}

static void wanted(bool is_so, const char *what) {
    if (is_so)
        return;
    fprintf(stderr, "not so: %s\n", what);
    exit(1);
}

static void read_image(const char *name) {
    struct image *image = &images[given++];
    FILE *file = given < IMAGES ? fopen(name, "rb") : NULL;
    wanted(file != NULL, name);
    image->bytes = __real_malloc(1 << 20);
    image->length = fread(image->bytes, 1, 1 << 20, file);
    fclose(file);
}

static uint32_t load(const struct image *image, struct sfi_run_world *world) {
    struct sfi_verdict verdict;
    memset(&verdict, 0xff, sizeof verdict);
    uint32_t status = sfi_run_load(image->bytes, image->length, world, &verdict);
    wanted(verdict.status == (status == SFI_RUN_NO_MEMORY ? SFI_ACCEPTED : status), "the verdict fits the status");
    wanted((verdict.findings > 0) == (status == SFI_RUN_REFUSED) && (verdict.layout_fault > 0) == (status == SFI_RUN_NO_IMAGE),
           "the verdict says why");
    wanted((sfi_run_count(world) > 0) == (status == SFI_RUN_LOADED), "there is a world where it is loaded");
    return status;
}

/* Loads an image over a world or none, while the allocations of these numbers are refused, counted from the call. */
static uint32_t load_refused(const struct image *image, const struct image *before, uint64_t from, uint64_t to) {
    struct sfi_run_world world = SFI_RUN_NO_WORLD;
    if (before)
        load(before, &world);
    refused_from = tried + from, refused_to = to == UINT64_MAX ? to : tried + to;
    uint32_t status = load(image, &world);
    refused_from = refused_to = UINT64_MAX;
    wanted(status == SFI_RUN_LOADED || live == 0, "nothing is left of what isn't loaded");
    if (status == SFI_RUN_NO_MEMORY)
        wanted(load(image, &world) == SFI_RUN_LOADED, "it is loaded where there is memory again");
    sfi_run_free(&world);
    wanted(live == 0, "a freed world gives all back");
    return status;
}

/* Each allocation of a load alone, and from each on. Returns how many there are. */
static uint64_t refuse_each(const struct image *image, const struct image *before) {
    uint64_t number = 0;
    while (load_refused(image, before, number, number + 1) == SFI_RUN_NO_MEMORY) {
        wanted(load_refused(image, before, number, UINT64_MAX) == SFI_RUN_NO_MEMORY, "without memory it isn't loaded");
        number++;
    }
    return number;
}

/* An image that isn't accepted takes no memory, and has its status without any. */
static void judge_without(const struct image *image) {
    struct sfi_run_world world = SFI_RUN_NO_WORLD;
    uint64_t before = taken;
    refused_from = tried;
    wanted(load(image, &world) == image->status && taken == before, "what isn't accepted takes no memory");
    refused_from = UINT64_MAX;
}

/* Each allocation of a console is refused in turn, and then that of the first put. */
static void console_without(const struct image *image) {
    struct sfi_run_world world = SFI_RUN_NO_WORLD;
    struct sfi_run_console console = SFI_RUN_NO_CONSOLE;
    struct sfi_run_event event;
    load(image, &world);
    const uint64_t before = live;
    uint64_t number = 0;
    bool is_done = false;
    while (!is_done) {
        refused_from = tried + number++;
        is_done = sfi_run_console_new(3, (const uint8_t *)"abc", 3, &console);
        refused_from = UINT64_MAX;
        wanted(is_done || live == before, "nothing is left of a console that isn't made");
    }
    wanted(number > 1, "a console takes memory");
    refused_from = tried;
    is_done = sfi_run_console_turn(&console, &world, 0, 100);
    refused_from = UINT64_MAX;
    wanted(is_done || (sfi_run_event(&world, 0, &event) == SFI_RUN_CALL && event.number == 1), "what can't be put waits at its call");
    wanted(is_done || (sfi_run_console_turn(&console, &world, 0, 100) && sfi_run_console_written(&console, 0) > 0),
           "it is put where there is memory again");
    sfi_run_free(&world);
    sfi_run_console_free(&console);
    sfi_run_console_free(&console);
    wanted(live == 0, "a freed console gives all back");
}

/* Adds the module's sandboxes, or removes the first where there is no module, while each allocation in turn is refused: until
 * it is done nothing changes, and nothing is left. */
static void change_without(struct sfi_run_world *world, struct sfi_run_module *module) {
    const uint64_t before = live;
    const size_t count = sfi_run_count(world);
    uint32_t status = SFI_RUN_CHANGE_NO_MEMORY, first = 99;
    for (uint64_t number = 0; status == SFI_RUN_CHANGE_NO_MEMORY; number++) {
        refused_from = tried + number;
        status = module ? sfi_run_add(world, module, &first) : sfi_run_remove(world, 0);
        refused_from = UINT64_MAX;
        wanted(status != SFI_RUN_CHANGE_NO_MEMORY || (live == before && sfi_run_count(world) == count && first == 99),
               "a change without memory is none");
    }
    wanted(status == SFI_RUN_CHANGED && (!module || first == count), "it is done where there is memory");
}

static void changes_without(const struct image *image) {
    struct sfi_run_world world = SFI_RUN_NO_WORLD;
    struct sfi_run_module module = SFI_RUN_NO_MODULE;
    struct sfi_verdict verdict;
    uint32_t first = 99;
    wanted(sfi_run_add(&world, &module, &first) == SFI_RUN_CHANGE_NO_WORLD && sfi_run_remove(&world, 0) == SFI_RUN_CHANGE_NO_WORLD,
           "without a world nothing is added or removed");
    load(image, &world);
    wanted(sfi_run_add(&world, &module, &first) == SFI_RUN_CHANGE_NO_MODULE, "without a module nothing is added");
    sfi_run_module_new(image->bytes, image->length, &module, &verdict);
    wanted(sfi_run_add(&world, &module, &first) == SFI_RUN_CHANGE_MEETS, "two don't lie at one place");
    wanted(sfi_run_remove(&world, 99) == SFI_RUN_CHANGE_NO_SANDBOX && first == 99, "who isn't there isn't removed");
    while (sfi_run_count(&world) > 0)
        change_without(&world, NULL);
    change_without(&world, &module);
    wanted(sfi_run_count(&world) == verdict.sandboxes, "all of the module are added");
    sfi_run_module_free(&module);
    sfi_run_free(&world);
    wanted(live == 0, "a freed world gives all back that was added");
}

static uint32_t state = 1;
static uint32_t below(uint32_t most) { /* xorshift32 */
    state ^= state << 13, state ^= state >> 17, state ^= state << 5;
    return state % most;
}

/* A call other than load and free, of any world and with any numbers. */
static void call(struct sfi_run_world *world) {
    static uint8_t bytes[512];
    struct sfi_run_event event;
    struct sfi_run_registers registers = {0};
    struct sfi_run_region data = {0, 0};
    uint32_t i = below(4), length = below(sizeof bytes);
    bool is_there = sfi_run_data(world, i, &data);
    wanted(sfi_run_registers(world, i, &registers) == is_there, "who has data has registers");
    uint32_t at = data.base - 16 + below(data.size + 32);
    switch (below(10)) {
    case 0: sfi_run_reply(world, i, below(99), below(99)); break;
    case 1: sfi_run_exit(world, i, below(99)); break;
    case 2: wanted(!sfi_run_read(world, i, at, length, bytes, length / 2) || length == 0, "no read beyond the room"); break;
    case 3: sfi_run_read(world, i, at, length, bytes, sizeof bytes); break;
    case 4: sfi_run_write(world, i, at, bytes, length); break;
    case 5: sfi_run_enter(world, i, registers.pc - below(64), (uint32_t[8]){at, length}); break;
    case 6: sfi_run_stop(world, i); break;
    case 7: wanted(sfi_run_reset(world, i) == is_there, "who is there is reset"); break;
    case 8: sfi_run_call(world, i, registers.pc - below(64), (uint32_t[8]){at, length}, below(200), &event); break;
    default: sfi_run_turn(world, i, below(200), &event);
    }
    wanted((sfi_run_event(world, i, &event) == SFI_RUN_NONE) == !is_there, "who has data has an event");
    wanted(is_there || sfi_run_steps(world, i) == 0, "who isn't there has no steps");
}

static void session(void) {
    struct sfi_run_world moved;
    uint64_t before;
    for (int k = 0; k < CALLS; k++) {
        struct sfi_run_world *world = &worlds[below(WORLDS)];
        switch (below(20)) {
        case 0: load(&images[below(given)], world); break;
        case 1: sfi_run_free(world); break;
        case 2: /* two worlds change places */
            moved = *world, *world = worlds[0], worlds[0] = moved;
            break;
        default:
            before = taken;
            call(world);
            wanted(taken == before, "load and free alone take and give memory");
        }
    }
    for (int k = 0; k < WORLDS; k++)
        sfi_run_free(&worlds[k]);
    wanted(live == 0, "a session gives all back");
}

int main(int count, char **words) {
    struct sfi_run_world world = SFI_RUN_NO_WORLD;
    uint64_t refused = 0;
    for (int k = 1; k < count; k++)
        read_image(words[k]);
    for (uint32_t k = 0; k < given; k++)
        of_status[images[k].status = load(&images[k], &world)]++;
    sfi_run_free(&world);
    for (uint32_t k = 0; k < given; k++)
        if (images[k].status == SFI_RUN_LOADED)
            refused += refuse_each(&images[k], NULL) + refuse_each(&images[k], &images[0]), console_without(&images[k]),
                changes_without(&images[k]);
        else
            judge_without(&images[k]);
    for (int k = 0; k < SESSIONS; k++)
        session();
    wanted(of_status[0] == 0 || refused >= 4 * of_status[0], "a load takes memory");
    for (uint32_t k = 0; k < given; k++)
        __real_free(images[k].bytes);
    printf("%" PRIu32 " loaded, %" PRIu32 " refused, %" PRIu32 " no image\n", of_status[0], of_status[1], of_status[2]);
    return 0;
}
