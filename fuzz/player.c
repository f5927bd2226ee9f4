/*
 * Makes the calls of sfi_run.h that a trace of fuzz/ports.py has, and writes of each 8 bytes, which all that it answers and
 * writes makes. Whoever links it with two libraries sees by these whether they answer alike.
 *
 *     player TRACE DIGESTS
 *
 * The trace has little-endian numbers: of each call its kind, how many numbers and how many bytes follow, each in 4 bytes; the
 * numbers, in 8 bytes each; and the bytes. It is trusted to be one of fuzz/ports.py.
 */
#include "sfi_run.h"

#include <stdio.h>
#include <stdlib.h>
#include <string.h>

enum { WORLDS = 4096, MODULES = 16, IMAGES = 4096, NUMBERS = 64, FILL = 0xA5, LOOKED_AT = 6 };

/* In the order of KINDS in fuzz/ports.py. */
enum kind {
    IMAGE, LOOK, LOAD, MODULE, MODULE_FREE, INSTANCE, ADD, REMOVE, FREE, MOVE, COUNT, TURN, UNTIL, EVENT, REPLY, EXIT, STOP, RESET,
    READ, WRITE, ENTER, CALL, CALL_BACK, SET_REGISTERS, STEPS, REGISTERS, REGION, VERSION
};

struct bytes {
    uint8_t *at;
    size_t length;
};

struct record {
    uint32_t kind, count;
    uint64_t numbers[NUMBERS];
    struct bytes data;
};

static struct sfi_run_world worlds[WORLDS];
static struct sfi_run_module modules[MODULES];
static struct bytes images[IMAGES];
static size_t image_count;
static uint64_t digest;
static FILE *trace;

static _Noreturn void fail(const char *why) {
    fprintf(stderr, "player: %s\n", why);
    exit(2);
}

/* ---- what is answered, as a number */

static void see(const void *answer, size_t length) {
    const uint8_t *bytes = answer;
    for (size_t i = 0; i < length; i++)
        digest = (digest ^ bytes[i]) * 0x100000001b3u;
}

static void see_number(uint64_t number) {
    uint8_t bytes[8];
    for (int i = 0; i < 8; i++)
        bytes[i] = (uint8_t)(number >> 8 * i);
    see(bytes, sizeof bytes);
}

static void see_event(uint64_t answer, const struct sfi_run_event *event) {
    see_number(answer);
    see(event, sizeof *event);
}

static void *filled(size_t size) {
    uint8_t *made = malloc(size + 1);
    if (!made)
        fail("there is no memory");
    memset(made, FILL, size + 1);
    return made;
}

/* ---- a heap, which sees that during a call its world's struct says that there is no world */

#ifdef SUYGAPID_RUN_OWN_HEAP
static const struct sfi_run_world *used;

static void peek(void) {
    if (used && (used->held || used->at))
        fail("a call asks the heap while its world is held");
}

void *suygapid_run_malloc(size_t size) {
    peek();
    return malloc(size);
}

void *suygapid_run_realloc(void *block, size_t size) {
    peek();
    return realloc(block, size);
}

void suygapid_run_free(void *block) {
    peek();
    free(block);
}
#endif

/* ---- the trace */

static bool read_all(void *at, size_t size) {
    return fread(at, 1, size, trace) == size;
}

static bool next(struct record *record) {
    uint32_t length;
    *record = (struct record){0};
    if (!read_all(&record->kind, 4))
        return false;
    if (!read_all(&record->count, 4) || !read_all(&length, 4) || record->count > NUMBERS ||
        !read_all(record->numbers, 8 * (size_t)record->count))
        fail("the trace ends early");
    record->data = (struct bytes){filled(length), length};
    if (!read_all(record->data.at, length))
        fail("the trace ends early");
    return true;
}

static void words_of(const struct record *record, uint32_t first, uint32_t *words, size_t count) {
    for (size_t i = 0; i < count; i++)
        words[i] = (uint32_t)record->numbers[first + i];
}

/* ---- calls that the images alone say */

static void look_at_names(struct bytes image, uint32_t sandbox) {
    uint8_t name[SFI_RUN_NAME_MOST];
    uint32_t size = 0, address = 0;
    see_number(sfi_run_api(image.at, image.length, sandbox, &address));
    for (uint32_t index = 0; index < LOOKED_AT; index++) {
        memset(name, FILL, sizeof name);
        see_number(sfi_run_export_at(image.at, image.length, sandbox, index, name, &size, &address));
        see_number(address);
        see_number(sfi_run_export(image.at, image.length, sandbox, (char *)name, size, &address));
        see_number(sfi_run_import_at(image.at, image.length, sandbox, index, name, &size, &address));
        see(name, sizeof name);
        see_number(sfi_run_import(image.at, image.length, sandbox, (char *)name, size, &address));
        see_number(address);
    }
}

/* Runs an image by a console whose input are the image's own bytes. */
static void look_at_console(struct bytes image) {
    struct sfi_run_world world = SFI_RUN_NO_WORLD;
    struct sfi_run_console console = SFI_RUN_NO_CONSOLE;
    struct sfi_verdict verdict;
    struct sfi_run_event event;
    see_number(sfi_run_load(image.at, image.length, &world, &verdict));
    see_number(sfi_run_console_new((uint32_t)sfi_run_count(&world), image.at, image.length, &console));
    for (uint32_t turn = 0; turn < LOOKED_AT; turn++)
        see_number(sfi_run_console_turn(&console, &world, turn % 3, 200 * turn));
    for (uint32_t sandbox = 0; sandbox < 3; sandbox++) {
        size_t written = sfi_run_console_written(&console, sandbox);
        uint8_t *text = filled(written);
        see_number(sfi_run_console_read(&console, sandbox, 0, text, written));
        see(text, written);
        see_event(sfi_run_event(&world, sandbox, &event), &event);
        free(text);
    }
    sfi_run_console_free(&console);
    sfi_run_free(&world);
}

/* ---- one call */

static void move(struct sfi_run_world *world) {
    struct sfi_run_world kept = *world;
    memset(world, FILL, sizeof *world);
    *world = kept;
}

static void read_data(const struct record *record, struct sfi_run_world *world) {
    const uint64_t *given = record->numbers;
    uint8_t *room = filled((size_t)given[4]);
    /* A length that this machine has no number for is one that is too large. */
    size_t length = given[3] > SIZE_MAX ? SIZE_MAX : (size_t)given[3];
    see_number(sfi_run_read(world, (uint32_t)given[1], (uint32_t)given[2], length, room, (size_t)given[4]));
    see(room, (size_t)given[4]);
    free(room);
}

static void run_until(const struct record *record, struct sfi_run_world *world) {
    uint32_t stops[NUMBERS] = {0}, count = record->count - 3;
    struct sfi_run_event event;
    words_of(record, 2, stops, count);
    see_event(sfi_run_until(world, (uint32_t)record->numbers[1], stops, count, (uint32_t)record->numbers[record->count - 1], &event),
              &event);
}

/* Of a sandbox, whose number is `number`, and a world. */
static void play_on(const struct record *record, struct sfi_run_world *world, uint32_t number) {
    uint32_t words[33];
    uint32_t first = (uint32_t)record->numbers[2], second = (uint32_t)record->numbers[3];
    struct sfi_run_event event;
    struct sfi_run_registers registers;
    struct sfi_run_region region;
    memset(&event, FILL, sizeof event);
    memset(&registers, FILL, sizeof registers);
    memset(&region, FILL, sizeof region);
    words_of(record, 3, words, 8);
    switch ((enum kind)record->kind) {
    case REMOVE: see_number(sfi_run_remove(world, number)); break;
    case TURN: see_event(sfi_run_turn(world, number, first, &event), &event); break;
    case UNTIL: run_until(record, world); break;
    case EVENT: see_event(sfi_run_event(world, number, &event), &event); break;
    case REPLY: see_number(sfi_run_reply(world, number, first, second)); break;
    case EXIT: see_number(sfi_run_exit(world, number, first)); break;
    case STOP: see_number(sfi_run_stop(world, number)); break;
    case RESET: see_number(sfi_run_reset(world, number)); break;
    case READ: read_data(record, world); break;
    case WRITE: see_number(sfi_run_write(world, number, first, record->data.at, record->data.length)); break;
    case ENTER: see_number(sfi_run_enter(world, number, first, words)); break;
    case CALL: see_event(sfi_run_call(world, number, first, words, (uint32_t)record->numbers[11], &event), &event); break;
    case CALL_BACK:
        see_number(sfi_run_call_back(world, number, first, words, &registers));
        see(&registers, sizeof registers);
        break;
    case SET_REGISTERS:
        words_of(record, 2, words, 33);
        memcpy(&registers, words, sizeof registers);
        see_number(sfi_run_set_registers(world, number, &registers));
        break;
    case STEPS: see_number(sfi_run_steps(world, number)); break;
    case REGISTERS:
        see_number(sfi_run_registers(world, number, &registers));
        see(&registers, sizeof registers);
        break;
    case REGION:
        see_number(sfi_run_data(world, number, &region));
        see(&region, sizeof region);
        break;
    default: fail("the trace has a kind that isn't known");
    }
}

static void play(struct record *record) {
    uint64_t one = record->numbers[0], other = record->numbers[1];
    struct sfi_run_world *world = &worlds[one % WORLDS];
    struct sfi_run_module *module = &modules[other % MODULES];
    struct sfi_verdict verdict;
    uint32_t number = FILL;
#ifdef SUYGAPID_RUN_OWN_HEAP
    used = record->kind == LOAD || record->kind >= INSTANCE ? world : NULL;
#endif
    switch ((enum kind)record->kind) {
    case IMAGE:
        if (image_count == IMAGES)
            fail("the trace has too many images");
        images[image_count++] = record->data;
        record->data.at = NULL;
        break;
    case LOOK:
        look_at_names(images[one], 0);
        look_at_names(images[one], 1);
        look_at_console(images[one]);
        break;
    case LOAD:
        see_number(sfi_run_load(images[other].at, images[other].length, world, &verdict));
        see(&verdict, sizeof verdict);
        break;
    case MODULE:
        see_number(sfi_run_module_new(images[other].at, images[other].length, &modules[one % MODULES], &verdict));
        see(&verdict, sizeof verdict);
        break;
    case MODULE_FREE: sfi_run_module_free(&modules[one % MODULES]); break;
    case INSTANCE: see_number(sfi_run_instance(module, world)); break;
    case ADD:
        see_number(sfi_run_add(world, module, &number));
        see_number(number);
        break;
    case FREE: sfi_run_free(world); break;
    case MOVE: move(world); break;
    case COUNT: see_number(sfi_run_count(world)); break;
    case VERSION: see_number(sfi_run_version()); break;
    default: play_on(record, world, (uint32_t)other);
    }
}

int main(int count, char **words) {
    struct record record;
    trace = count == 3 ? fopen(words[1], "rb") : NULL;
    FILE *digests = trace ? fopen(words[2], "wb") : NULL;
    if (!digests)
        fail("usage: player TRACE DIGESTS, which can be opened");
    while (next(&record)) {
        digest = 0xcbf29ce484222325u;
        play(&record);
        free(record.data.at);
        if (fwrite(&digest, sizeof digest, 1, digests) != 1)
            fail("the digests aren't written");
    }
    return fclose(digests) == 0 ? 0 : 2;
}
