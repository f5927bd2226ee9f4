/* The calls of sfi_run.h by native code: sfi_run_native.h says what they do. tools/libraries.py links it with libsfi_run, whose calls
   have names with sfi_stepped_ there, and with the compiler, libsfi_tool_c. Nothing of this file is proved. */
#define _GNU_SOURCE
#include "sfi_run_native.h"

#if !defined(__x86_64__) || !defined(__LP64__) || !defined(__linux__)
uint32_t sfi_run_engine(const struct sfi_run_world *world) {
    return world->held ? SFI_RUN_INTERPRETED : SFI_RUN_NO_ENGINE;
}

uint8_t *sfi_native_data(struct sfi_run_world *world, uint32_t sandbox) {
    (void)world;
    (void)sandbox;
    return NULL;
}
#else
#include <malloc.h>

#include "sfi_tool.h"

#include "sfi_native_image.h"
#include "sfi_native_code.h"

/* ---- the interpreter, and the parts of other files under names of their own */

#define STEPPED_CALLS(X) X(version) X(load) X(free) X(module_new) X(module_free) X(instance) X(add) X(remove) X(count) \
    X(export) X(import) X(export_at) X(import_at) X(api) X(turn) X(until) X(event) X(reply) X(exit) X(stop) X(reset) X(read) X(write) \
    X(enter) X(call) X(call_back) X(steps) X(registers) X(data) X(set_registers) \
    X(console_new) X(console_free) X(console_turn) X(console_written) X(console_read)
#define STEPPED_CALL(name) extern __typeof__(sfi_run_##name) sfi_stepped_##name;
STEPPED_CALLS(STEPPED_CALL)

enum { STEPPED = 1, NATIVE = 2 }; /* what `held` of a world says; of a module and a console it is STEPPED */
#define SFI_OTHERWISE(call) \
    if (world->held != NATIVE) \
        return sfi_stepped_##call;

#define sfi_run_console_new native_console_new
#define sfi_run_console_free native_console_free
#define sfi_run_console_turn native_console_turn
#define sfi_run_console_written native_console_written
#define sfi_run_console_read native_console_read
#include "sfi_native_world.c"
#undef sfi_run_console_new
#undef sfi_run_console_free
#undef sfi_run_console_turn
#undef sfi_run_console_written
#undef sfi_run_console_read

/* ---- a module */

/* What a module and the sandboxes that are made of it share, of which `uses` is the count. */
struct shared {
    size_t uses;
    struct sfi_run_module stepped; /* until the module is freed */
    uint8_t *bytes;
    size_t length;
    struct sfi_image image;
    struct sfi_code codes[SFI_SANDBOXES_MOST];
    uint32_t entered[SFI_SANDBOXES_MOST][32]; /* the registers of a function that a host enters */
    bool is_native;
};

static void release(struct shared *it) {
    if (__atomic_sub_fetch(&it->uses, 1, __ATOMIC_ACQ_REL) != 0)
        return;
    sfi_unmap_code(it->codes, it->is_native ? it->image.count : 0);
    free(it->bytes);
    free(it);
}

/* Hands back to the system what malloc keeps of the memory that a large image took for a moment. */
static void give_back(size_t length) {
    enum { LARGE = 1 << 16 };
#ifdef __GLIBC__
    if (length >= LARGE)
        malloc_trim(0);
#else
    (void)length;
#endif
}

static size_t all_code(const struct sfi_image *image) {
    size_t size = 0;
    for (size_t k = 0; k < image->count; k++)
        size += image->sandboxes[k].code_size;
    return size;
}

/* What `sfi native` writes of the image, which is to be freed, or NULL. First data make it no longer. */
static uint8_t *compiled(const struct shared *it, size_t *length) {
    static const uint8_t words[] = "sfi\0native";
    enum { ROOM = 65536, GROWTH = 16 };
    size_t room = ROOM + GROWTH * all_code(&it->image);
    for (;;) {
        uint8_t *const file = malloc(room);
        if (file == NULL || (sfi_tool_answer(words, sizeof words, it->bytes, it->length, file, room, length) == SFI_TOOL_DONE && *length <= room))
            return file;
        free(file);
        if (*length <= room)
            return NULL;
        room = *length;
    }
}

/* Whether there is native code of the image, which is mapped then. */
static bool compile(struct shared *it) {
    size_t length = 0;
    for (size_t k = 0; k < it->image.count; k++)
        if (it->image.sandboxes[k].data_size % SFI_ZONE != 0)
            return false;
    uint8_t *const file = compiled(it, &length);
    const bool is_mapped = file != NULL && sfi_map_code(file, length, it->image.sandboxes, it->image.count, it->codes);
    free(file);
    return is_mapped;
}

/* Has the interpreter say what registers hold where a host enters a function. Whether there was memory for that. */
static bool read_entered(struct shared *it) {
    static const uint32_t none[8];
    struct sfi_run_world world = SFI_RUN_NO_WORLD;
    struct sfi_run_registers found;
    if (!sfi_stepped_instance(&it->stepped, &world))
        return false;
    for (uint32_t k = 0; k < it->image.count; k++) {
        sfi_stepped_stop(&world, k);
        sfi_stepped_enter(&world, k, it->image.sandboxes[k].start, none);
        sfi_stepped_registers(&world, k, &found);
        memcpy(it->entered[k], found.x, sizeof found.x);
    }
    sfi_stepped_free(&world);
    return true;
}

/* What is shared of an accepted image, of which the module is made; NULL where there is no memory. */
static struct shared *share(const uint8_t *image, size_t length, struct sfi_run_module stepped) {
    struct shared *const it = zeros(sizeof *it);
    uint8_t *const bytes = malloc(length);
    if (it != NULL && bytes != NULL) {
        memcpy(bytes, image, length);
        it->uses = 1;
        it->bytes = bytes;
        it->length = length;
        it->stepped = stepped;
        if (sfi_read_image(bytes, length, &it->image) && read_entered(it)) {
            it->is_native = compile(it);
            return it;
        }
    }
    free(bytes);
    free(it);
    return NULL;
}

static struct shared *shared_of(const struct sfi_run_module *module) {
    return module->held ? module->at : NULL;
}

uint32_t sfi_run_module_new(const uint8_t *image, size_t length, struct sfi_run_module *module, struct sfi_verdict *verdict) {
    struct sfi_run_module stepped = SFI_RUN_NO_MODULE;
    sfi_run_module_free(module);
    const uint32_t status = sfi_stepped_module_new(image, length, &stepped, verdict);
    if (status != SFI_RUN_LOADED)
        return status;
    struct shared *const it = share(image, length, stepped);
    if (it == NULL) {
        sfi_stepped_module_free(&stepped);
        return SFI_RUN_NO_MEMORY;
    }
    module->held = STEPPED;
    module->at = it;
    give_back(length);
    return status;
}

void sfi_run_module_free(struct sfi_run_module *module) {
    struct shared *const it = shared_of(module);
    if (it != NULL) {
        const size_t length = it->length;
        sfi_stepped_module_free(&it->stepped);
        release(it);
        give_back(length);
    }
    module->held = 0;
    module->at = NULL;
}

/* ---- what sfi_native_world.c asks for */

static int native_turn(struct native_sandbox *it, sfi_u32 *at) {
    const struct shared *const of = it->module;
    int how = SFI_NEXT;
    if (it->has_code)
        return sfi_native_turn(&of->codes[it->text - of->image.sandboxes], &it->hart, at);
    while (how == SFI_NEXT && it->hart.left != 0)
        how = sfi_step(it->text, &it->hart, at);
    return how;
}

static const uint8_t *code_of(const struct native_sandbox *it) {
    return sfi_code_bytes(it->text);
}

static uint8_t format_of(const struct native_sandbox *it) {
    return ((const struct shared *)it->module)->bytes[MAGIC_SIZE - 1];
}

/* ---- a world */

uint32_t sfi_run_version(void) {
    return sfi_stepped_version();
}

static void end_sandboxes(struct native_sandbox *all, size_t count) {
    free_sandboxes(all, count);
    for (size_t k = 0; k < count; k++)
        release(all[k].module);
}

/* Makes the sandboxes of a module where nothing is, by native code or not: all of them, or none. */
static bool make_of_module(struct shared *it, bool has_code, struct native_sandbox *all) {
    const bool is_made = make_sandboxes(it->image.sandboxes, it->image.count, has_code, all);
    for (size_t k = 0; is_made && k < it->image.count; k++) {
        all[k].module = it;
        all[k].entered = it->entered[k];
    }
    if (is_made)
        __atomic_add_fetch(&it->uses, it->image.count, __ATOMIC_RELAXED);
    return is_made;
}

void sfi_run_free(struct sfi_run_world *world) {
    struct native_world *const it = world->at;
    if (world->held != NATIVE) {
        sfi_stepped_free(world);
        return;
    }
    end_sandboxes(it->all, it->count);
    free(it);
    world->held = 0;
    world->at = NULL;
}

bool sfi_run_instance(struct sfi_run_module *module, struct sfi_run_world *world) {
    struct shared *const it = shared_of(module);
    sfi_run_free(world);
    if (it == NULL)
        return false;
    struct native_world *const made = it->is_native ? new_world(it->image.count) : NULL;
    if (made == NULL || !make_of_module(it, true, made->all)) {
        free(made);
        return sfi_stepped_instance(&it->stepped, world);
    }
    world->held = NATIVE;
    world->at = made;
    return true;
}

uint32_t sfi_run_load(const uint8_t *image, size_t length, struct sfi_run_world *world, struct sfi_verdict *verdict) {
    struct sfi_run_module module = SFI_RUN_NO_MODULE;
    sfi_run_free(world);
    const uint32_t status = sfi_run_module_new(image, length, &module, verdict);
    const bool is_made = sfi_run_instance(&module, world);
    sfi_run_module_free(&module);
    return status == SFI_RUN_LOADED && !is_made ? SFI_RUN_NO_MEMORY : status;
}

size_t sfi_run_count(struct sfi_run_world *world) {
    SFI_OTHERWISE(count(world))
    return ((const struct native_world *)world->at)->count;
}

uint32_t sfi_run_engine(const struct sfi_run_world *world) {
    const struct native_world *const it = world->at;
    if (world->held != NATIVE)
        return world->held ? SFI_RUN_INTERPRETED : SFI_RUN_NO_ENGINE;
    for (size_t k = 0; k < it->count; k++)
        if (!it->all[k].has_code)
            return SFI_RUN_INTERPRETED;
    return SFI_RUN_NATIVE;
}

uint8_t *sfi_native_data(struct sfi_run_world *world, uint32_t sandbox) {
    return world->held == NATIVE ? data_of(world, sandbox, 0, 0) : NULL;
}

/* ---- sandboxes that come and go */

/* The addresses from the first up to the last, which isn't among them. */
struct span {
    int64_t first, last;
};

static bool have_common_address(struct span one, struct span other) {
    return one.first < other.last && other.first < one.last;
}

/* Whether addresses lie in the zone at zero of a sandbox, if its format has one. */
static bool is_in_zone(struct span it, const struct sfi_sandbox *s) {
    return s->single && (it.first < (int64_t)s->data_size + SFI_ZONE || it.last > ((int64_t)1 << 32) - SFI_ZONE);
}

/* Whether code, data or a guard zone of the two have a common address, or lie in a zone at zero of the other, where it has one. */
static bool meet(const struct sfi_sandbox *one, const struct sfi_sandbox *other) {
    const struct sfi_sandbox *const both[2] = {one, other};
    struct span code[2], guarded[2];
    for (int k = 0; k < 2; k++) {
        code[k] = (struct span){both[k]->code, (int64_t)both[k]->code + both[k]->code_size};
        guarded[k] = (struct span){(int64_t)both[k]->data - SFI_ZONE, (int64_t)both[k]->data + both[k]->data_size + SFI_ZONE};
    }
    for (int k = 0; k < 2; k++)
        if (is_in_zone(code[k], both[1 - k]) || is_in_zone(guarded[k], both[1 - k]))
            return true;
    return have_common_address(code[0], code[1]) || have_common_address(code[0], guarded[1]) ||
        have_common_address(guarded[0], code[1]) || have_common_address(guarded[0], guarded[1]);
}

static bool some_meet(const struct native_world *world, const struct shared *module) {
    for (size_t k = 0; k < world->count; k++)
        for (size_t other = 0; other < module->image.count; other++)
            if (meet(world->all[k].text, &module->image.sandboxes[other]))
                return true;
    return false;
}

uint32_t sfi_run_add(struct sfi_run_world *world, struct sfi_run_module *module, uint32_t *first) {
    struct sfi_run_module none = SFI_RUN_NO_MODULE;
    struct shared *const it = shared_of(module);
    SFI_OTHERWISE(add(world, it != NULL ? &it->stepped : &none, first))
    struct native_world *const before = world->at;
    if (it == NULL)
        return SFI_RUN_CHANGE_NO_MODULE;
    if (some_meet(before, it))
        return SFI_RUN_CHANGE_MEETS;
    struct native_world *const made = new_world(before->count + it->image.count);
    struct native_sandbox *const all = made != NULL ? made->all + before->count : NULL;
    if (made == NULL || !((it->is_native && make_of_module(it, true, all)) || make_of_module(it, false, all))) {
        free(made);
        return SFI_RUN_CHANGE_NO_MEMORY;
    }
    memcpy(made->all, before->all, before->count * sizeof *made->all);
    *first = (uint32_t)before->count;
    world->at = made;
    free(before);
    return SFI_RUN_CHANGED;
}

uint32_t sfi_run_remove(struct sfi_run_world *world, uint32_t sandbox) {
    SFI_OTHERWISE(remove(world, sandbox))
    struct native_world *const it = world->at;
    if (sandbox >= it->count)
        return SFI_RUN_CHANGE_NO_SANDBOX;
    end_sandboxes(&it->all[sandbox], 1);
    it->count--;
    memmove(&it->all[sandbox], &it->all[sandbox + 1], (it->count - sandbox) * sizeof *it->all);
    return SFI_RUN_CHANGED;
}

/* ---- names */

uint32_t sfi_run_export(const uint8_t *image, size_t length, uint32_t sandbox, const char *name, size_t size, uint32_t *address) {
    return sfi_stepped_export(image, length, sandbox, name, size, address);
}

uint32_t sfi_run_import(const uint8_t *image, size_t length, uint32_t sandbox, const char *name, size_t size, uint32_t *address) {
    return sfi_stepped_import(image, length, sandbox, name, size, address);
}

uint32_t sfi_run_export_at(const uint8_t *image, size_t length, uint32_t sandbox, uint32_t index, uint8_t name[SFI_RUN_NAME_MOST],
                           uint32_t *name_size, uint32_t *address) {
    return sfi_stepped_export_at(image, length, sandbox, index, name, name_size, address);
}

uint32_t sfi_run_import_at(const uint8_t *image, size_t length, uint32_t sandbox, uint32_t index, uint8_t name[SFI_RUN_NAME_MOST],
                           uint32_t *name_size, uint32_t *address) {
    return sfi_stepped_import_at(image, length, sandbox, index, name, name_size, address);
}

uint32_t sfi_run_api(const uint8_t *image, size_t length, uint32_t sandbox, uint32_t *version) {
    return sfi_stepped_api(image, length, sandbox, version);
}

/* ---- consoles: one of each kind, of which the first world that is served takes its own */

struct consoles {
    struct sfi_run_console stepped, native;
    uint32_t serves; /* STEPPED, NATIVE, or 0 where none was served */
};

void sfi_run_console_free(struct sfi_run_console *console) {
    struct consoles *const it = console->at;
    if (console->held) {
        sfi_stepped_console_free(&it->stepped);
        native_console_free(&it->native);
        free(it);
    }
    console->held = 0;
    console->at = NULL;
}

bool sfi_run_console_new(uint32_t sandboxes, const uint8_t *input, size_t length, struct sfi_run_console *console) {
    sfi_run_console_free(console);
    struct consoles *const it = zeros(sizeof *it);
    if (it == NULL)
        return false;
    console->held = STEPPED;
    console->at = it;
    if (sfi_stepped_console_new(sandboxes, input, length, &it->stepped) && native_console_new(sandboxes, input, length, &it->native))
        return true;
    sfi_run_console_free(console);
    return false;
}

bool sfi_run_console_turn(struct sfi_run_console *console, struct sfi_run_world *world, uint32_t sandbox, uint32_t steps) {
    struct consoles *const it = console->at;
    if (!console->held || !world->held || (it->serves != 0 && it->serves != world->held))
        return false;
    it->serves = world->held;
    return it->serves == NATIVE ? native_console_turn(&it->native, world, sandbox, steps)
                                : sfi_stepped_console_turn(&it->stepped, world, sandbox, steps);
}

size_t sfi_run_console_written(struct sfi_run_console *console, uint32_t sandbox) {
    struct consoles *const it = console->at;
    if (!console->held)
        return 0;
    return it->serves == NATIVE ? native_console_written(&it->native, sandbox) : sfi_stepped_console_written(&it->stepped, sandbox);
}

bool sfi_run_console_read(struct sfi_run_console *console, uint32_t sandbox, size_t from, uint8_t *bytes, size_t room) {
    struct consoles *const it = console->at;
    if (!console->held)
        return false;
    return it->serves == NATIVE ? native_console_read(&it->native, sandbox, from, bytes, room)
                                : sfi_stepped_console_read(&it->stepped, sandbox, from, bytes, room);
}
#endif
