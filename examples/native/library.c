/* Does to libsfi_run_native what may break it.
 *
 *     library IMAGE FAR SMALL TEST     # IMAGE is library.s, FAR the same at another place, SMALL one whose data are no whole page
 *
 * Ends in 0 where all is so, and else says what isn't.
 */
#define _GNU_SOURCE
#include "sfi_run_native.h"

#include <pthread.h>
#include <setjmp.h>
#include <signal.h>
#include <stdio.h>
#include <stdlib.h>
#include <string.h>
#include <sys/mman.h>
#include <sys/resource.h>
#include <sys/wait.h>
#include <unistd.h>

enum { THREADS = 6, LIVES = 300, CALLS = 20, WORLDS_MOST = 70000, STEPS = 1000, DATA = 4096, MOST_IMAGE = 1 << 16, FORMAT_AT = 3 };

static void wanted(bool is_so, const char *what) {
    if (is_so)
        return;
    fprintf(stderr, "not so: %s\n", what);
    _exit(1);
}

/* ---- images */

static struct image {
    uint8_t bytes[MOST_IMAGE];
    size_t length;
} whole, far, small;

static void read_image(const char *path, struct image *image) {
    FILE *const file = fopen(path, "rb");
    wanted(file != NULL, path);
    image->length = fread(image->bytes, 1, sizeof image->bytes, file);
    fclose(file);
}

static uint32_t export(const struct image *image, const char *name) {
    uint32_t address = 0;
    wanted(sfi_run_export(image->bytes, image->length, 0, name, strlen(name), &address) == SFI_RUN_NAMES_FOUND, name);
    return address;
}

static struct sfi_run_module module_of(const struct image *image) {
    struct sfi_run_module module = SFI_RUN_NO_MODULE;
    struct sfi_verdict verdict;
    wanted(sfi_run_module_new(image->bytes, image->length, &module, &verdict) == SFI_RUN_LOADED, "the image is loaded");
    return module;
}

static struct sfi_run_world world_of(const struct image *image) {
    struct sfi_run_world world = SFI_RUN_NO_WORLD;
    struct sfi_verdict verdict;
    wanted(sfi_run_load(image->bytes, image->length, &world, &verdict) == SFI_RUN_LOADED, "the image is loaded");
    return world;
}

/* ---- calls */

static void end_start(struct sfi_run_world *world, uint32_t sandbox) {
    struct sfi_run_event event;
    if (sfi_run_turn(world, sandbox, STEPS, &event) == SFI_RUN_CALL)
        sfi_run_exit(world, sandbox, 0);
}

static void see_add(struct sfi_run_world *world, uint32_t sandbox, const struct image *image, uint32_t a, uint32_t b) {
    const uint32_t arguments[8] = {a, b};
    struct sfi_run_event event;
    wanted(sfi_run_call(world, sandbox, export(image, "add"), arguments, STEPS, &event), "add is entered");
    wanted(event.kind == SFI_RUN_CALL && event.number == 0 && event.a0 == a + b, "add adds");
    wanted(sfi_run_exit(world, sandbox, event.a0), "add ends");
}

static void see_fault(struct sfi_run_world *world, uint32_t sandbox, const struct image *image) {
    const uint32_t arguments[8] = {0};
    struct sfi_run_region data;
    struct sfi_run_event event;
    sfi_run_data(world, sandbox, &data);
    wanted(sfi_run_call(world, sandbox, export(image, "fault"), arguments, STEPS, &event), "fault is entered");
    wanted(event.kind == SFI_RUN_TRAPPED && event.number == SFI_RUN_LOAD && event.a0 == data.base - 4, "fault traps");
}

static bool has_single_masks(const struct image *image) {
    return image->bytes[FORMAT_AT] == 'S';
}

/* A load from any address: one of the data's first word, or with single masks one that traps where it is. */
static void see_load(struct sfi_run_world *world, uint32_t sandbox, const struct image *image, uint32_t address) {
    const uint32_t arguments[8] = {address}, at = address & (DATA - 1);
    struct sfi_run_event event;
    wanted(sfi_run_call(world, sandbox, export(image, "load"), arguments, STEPS, &event), "load is entered");
    if (has_single_masks(image))
        wanted(event.kind == SFI_RUN_TRAPPED && event.number == SFI_RUN_LOAD && event.a0 == at, "load traps");
    else
        wanted(event.kind == SFI_RUN_CALL && (at != 0 || event.a0 == 7) && sfi_run_exit(world, sandbox, 0), "load loads");
}

static void see_all(struct sfi_run_world *world, uint32_t sandbox, const struct image *image) {
    end_start(world, sandbox);
    see_load(world, sandbox, image, 0);
    see_load(world, sandbox, image, DATA - 4);
    see_load(world, sandbox, image, 0x00100000);
    see_add(world, sandbox, image, 40, 2);
    see_fault(world, sandbox, image);
    wanted(sfi_run_reset(world, sandbox) && sfi_run_steps(world, sandbox) == 0, "it is reset");
    end_start(world, sandbox);
    see_add(world, sandbox, image, UINT32_MAX, 3);
}

static void take_steps(struct sfi_run_world *world, uint32_t sandbox) {
    struct sfi_run_event event;
    wanted(sfi_run_turn(world, sandbox, STEPS, &event) != SFI_RUN_NONE, "it is there");
}

/* ---- tests */

static void engines(void) {
    struct sfi_run_world none = SFI_RUN_NO_WORLD, native = world_of(&whole), stepped = world_of(&small);
    struct sfi_run_module near = module_of(&whole), beside = module_of(&far), little = module_of(&small);
    uint32_t first = 9;
    wanted(sfi_run_engine(&none) == SFI_RUN_NO_ENGINE, "no world has no engine");
    wanted(sfi_run_engine(&native) == SFI_RUN_NATIVE, "whole pages are native");
    wanted(sfi_run_engine(&stepped) == SFI_RUN_INTERPRETED, "others are not");
    wanted(sfi_native_data(&stepped, 0) == NULL && sfi_native_data(&native, 1) == NULL, "others show no data");
    wanted(memcmp(sfi_native_data(&native, 0), "\7\0\0\0", 4) == 0, "native data are shown");
    wanted(sfi_run_add(&native, &near, &first) == SFI_RUN_CHANGE_MEETS && first == 9, "two can't be at one place");
    wanted(sfi_run_add(&native, &beside, &first) == SFI_RUN_CHANGED && first == 1, "another is added");
    wanted(sfi_run_engine(&native) == SFI_RUN_NATIVE, "both are native");
    see_all(&native, 0, &whole);
    see_all(&native, 1, &far);
    wanted(sfi_run_remove(&native, 0) == SFI_RUN_CHANGED, "the first goes");
    wanted(sfi_run_remove(&native, 1) == SFI_RUN_CHANGE_NO_SANDBOX, "there is one");
    see_all(&native, 0, &far);
    wanted(sfi_run_add(&native, &little, &first) == SFI_RUN_CHANGED && first == 1, "a small one is added to a native world");
    wanted(sfi_run_engine(&native) == SFI_RUN_INTERPRETED, "not all are native");
    take_steps(&native, 1);
    see_all(&native, 0, &far);
    wanted(sfi_run_remove(&native, 1) == SFI_RUN_CHANGED && sfi_run_remove(&native, 0) == SFI_RUN_CHANGED, "all go");
    wanted(sfi_run_count(&native) == 0 && sfi_run_add(&native, &near, &first) == SFI_RUN_CHANGED && first == 0, "one comes");
    see_all(&native, 0, &whole);
    wanted(sfi_run_add(&stepped, &beside, &first) == SFI_RUN_CHANGED && first == 1, "one is added to a world that isn't native");
    see_all(&stepped, 1, &far);
    sfi_run_module_free(&near);
    sfi_run_module_free(&beside);
    sfi_run_module_free(&little);
    see_all(&native, 0, &whole);
    sfi_run_free(&native);
    sfi_run_free(&native);
    sfi_run_free(&stepped);
}

/* A call of which the host calls back. */
static void calls_back(void) {
    struct sfi_run_world world = world_of(&whole);
    const uint32_t arguments[8] = {5, 6};
    struct sfi_run_registers kept;
    struct sfi_run_event event;
    end_start(&world, 0);
    wanted(sfi_run_call(&world, 0, export(&whole, "doubled"), arguments, STEPS, &event) && event.number == 3, "it asks");
    wanted(sfi_run_call_back(&world, 0, export(&whole, "add"), arguments, &kept) && kept.pc == event.pc, "it is called back");
    wanted(sfi_run_turn(&world, 0, STEPS, &event) == SFI_RUN_CALL && event.number == 0 && event.a0 == 11, "add adds");
    wanted(sfi_run_exit(&world, 0, event.a0) && sfi_run_set_registers(&world, 0, &kept), "it stands at its call again");
    wanted(sfi_run_reply(&world, 0, 21, 0) && sfi_run_turn(&world, 0, STEPS, &event) == SFI_RUN_CALL && event.a0 == 42, "it goes on");
    sfi_run_free(&world);
}

static struct sfi_run_module shared;

static void *live(void *unused) {
    for (int life = 0; life < LIVES; life++) {
        struct sfi_run_world *const world = unused;
        end_start(world, 0);
        for (uint32_t k = 0; k < CALLS; k++)
            see_add(world, 0, &whole, k, (uint32_t)life);
        see_fault(world, 0, &whole);
        sfi_run_reset(world, 0);
    }
    return NULL;
}

/* A world each, of one module, which is freed meanwhile. */
static void threads(void) {
    struct sfi_run_world worlds[THREADS] = {0};
    pthread_t ids[THREADS];
    shared = module_of(&whole);
    for (int k = 0; k < THREADS; k++)
        wanted(sfi_run_instance(&shared, &worlds[k]), "an instance is made");
    for (int k = 0; k < THREADS; k++)
        pthread_create(&ids[k], NULL, live, &worlds[k]);
    sfi_run_module_free(&shared);
    for (int k = 0; k < THREADS; k++) {
        pthread_join(ids[k], NULL);
        wanted(sfi_run_engine(&worlds[k]) == SFI_RUN_NATIVE, "each is native");
        sfi_run_free(&worlds[k]);
    }
}

/* On the least stack that the header asks for. */
static void *load_there(void *unused) {
    struct sfi_run_world world = world_of(&whole);
    see_all(&world, 0, &whole);
    sfi_run_free(&world);
    return unused;
}

static void stack(void) {
    pthread_attr_t attributes;
    pthread_t id;
    pthread_attr_init(&attributes);
    pthread_attr_setstacksize(&attributes, SFI_RUN_NATIVE_STACK);
    pthread_create(&id, &attributes, load_there, NULL);
    pthread_join(id, NULL);
}

static void forks(void) {
    struct sfi_run_world world = world_of(&whole);
    int status = 1;
    end_start(&world, 0);
    const pid_t child = fork();
    see_all(&world, 0, &whole);
    struct sfi_run_world other = world_of(&far);
    see_all(&other, 0, &far);
    sfi_run_free(&world);
    sfi_run_free(&other);
    if (child == 0)
        _exit(0);
    wanted(waitpid(child, &status, 0) == child && status == 0, "the child ends well");
}

static sigjmp_buf back;
static struct sigaction before;

static void take_host_fault(int number) {
    (void)number;
    siglongjmp(back, 1);
}

/* Takes the host's own fault, which is at address 8, and hands on others. */
static void hand_on(int number, siginfo_t *info, void *context) {
    if (info->si_addr == (void *)8)
        siglongjmp(back, 1);
    before.sa_sigaction(number, info, context);
}

static void fault_in_host(void) {
    static volatile uint32_t *volatile nowhere = (uint32_t *)8;
    if (sigsetjmp(back, 1) == 0) {
        *nowhere = 1;
        wanted(false, "the host's own fault is taken");
    }
}

static void handler_before(void) {
    struct sigaction own = {.sa_handler = take_host_fault};
    sigaction(SIGSEGV, &own, NULL);
    struct sfi_run_world world = world_of(&whole);
    see_all(&world, 0, &whole);
    fault_in_host();
    see_all(&world, 0, &whole);
    sfi_run_free(&world);
    fault_in_host();
}

static void handler_after(void) {
    struct sigaction own = {.sa_flags = SA_SIGINFO};
    own.sa_sigaction = hand_on;
    struct sfi_run_world world = world_of(&whole);
    sigaction(SIGSEGV, &own, &before);
    see_all(&world, 0, &whole);
    fault_in_host();
    see_all(&world, 0, &whole);
    sfi_run_free(&world);
}

/* Has the process no more than so many addresses beyond those that it has; all, if that is 0. */
static void limit_addresses(size_t more) {
    enum { PAGE = 4096 };
    struct rlimit limit;
    FILE *const file = fopen("/proc/self/statm", "r");
    size_t pages = 0;
    wanted(file != NULL && fscanf(file, "%zu", &pages) == 1 && getrlimit(RLIMIT_AS, &limit) == 0, "the addresses are told");
    fclose(file);
    limit.rlim_cur = more ? pages * PAGE + more : limit.rlim_max;
    wanted(setrlimit(RLIMIT_AS, &limit) == 0, "the addresses are limited");
}

/* Where there is no room for a window of 4 GiB, what wants one goes step by step. */
static void limited(void) {
    const uint32_t engine = has_single_masks(&whole) ? SFI_RUN_INTERPRETED : SFI_RUN_NATIVE;
    struct sfi_run_world native = world_of(&whole);
    struct sfi_run_module beside = module_of(&far);
    uint32_t first = 0;
    limit_addresses(1 << 30);
    struct sfi_run_world under = world_of(&far);
    wanted(sfi_run_engine(&under) == engine, "it is native where it can be");
    see_all(&under, 0, &far);
    wanted(sfi_run_add(&native, &beside, &first) == SFI_RUN_CHANGED && first == 1, "another is added");
    wanted(sfi_run_engine(&native) == engine, "it is native where it can be, too");
    see_all(&native, 0, &whole);
    see_all(&native, 1, &far);
    limit_addresses(0);
    see_all(&native, 1, &far);
    wanted(sfi_run_remove(&native, 1) == SFI_RUN_CHANGED && sfi_run_engine(&native) == SFI_RUN_NATIVE, "the other is native");
    wanted(sfi_run_instance(&beside, &under) && sfi_run_engine(&under) == SFI_RUN_NATIVE, "there is room again");
    see_all(&under, 0, &far);
    sfi_run_free(&under);
    sfi_run_free(&native);
    sfi_run_module_free(&beside);
}

/* Whether the host can have many more maps. */
static bool has_maps(void) {
    enum { PAGE = 4096, PAGES = 4000 };
    uint8_t *const pages = mmap(NULL, PAGES * PAGE, PROT_NONE, MAP_PRIVATE | MAP_ANONYMOUS, -1, 0);
    bool has = pages != MAP_FAILED;
    for (size_t k = 0; has && k < PAGES; k += 2) /* each is a map, and parts what is beside it */
        has = mprotect(pages + k * PAGE, PAGE, PROT_READ) == 0;
    munmap(pages, PAGES * PAGE);
    return has;
}

/* Worlds until another one's data have no map: those that follow go step by step, until some are freed. The host has maps left. */
static void maps(void) {
    static struct sfi_run_world worlds[WORLDS_MOST];
    struct sfi_run_module module = module_of(&whole);
    size_t count = 0;
    while (count < WORLDS_MOST && sfi_run_instance(&module, &worlds[count]) && sfi_run_engine(&worlds[count]) == SFI_RUN_NATIVE)
        count++;
    wanted(count > 1000 && count < WORLDS_MOST, "maps run out");
    wanted(sfi_run_engine(&worlds[count]) == SFI_RUN_INTERPRETED, "the last one goes step by step");
    wanted(has_maps(), "the host has maps of its own");
    see_all(&worlds[count], 0, &whole);
    see_all(&worlds[count - 1], 0, &whole);
    for (size_t k = 0; k <= count; k++)
        sfi_run_free(&worlds[k]);
    wanted(sfi_run_instance(&module, &worlds[0]) && sfi_run_engine(&worlds[0]) == SFI_RUN_NATIVE, "there are maps again");
    see_all(&worlds[0], 0, &whole);
    sfi_run_free(&worlds[0]);
    sfi_run_module_free(&module);
}

int main(int count, char **words) {
    static const struct {
        const char *name;
        void (*test)(void);
    } tests[] = {{"engines", engines}, {"calls-back", calls_back}, {"threads", threads}, {"stack", stack}, {"forks", forks},
                 {"handler-before", handler_before}, {"handler-after", handler_after}, {"limited", limited}, {"maps", maps}};
    wanted(count == 5, "there are four words");
    read_image(words[1], &whole);
    read_image(words[2], &far);
    read_image(words[3], &small);
    for (size_t k = 0; k < sizeof tests / sizeof *tests; k++)
        if (strcmp(words[4], tests[k].name) == 0) {
            tests[k].test();
            return 0;
        }
    wanted(false, "it is a test");
}
