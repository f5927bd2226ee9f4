/* The proved decisions of slots: the library of crates/sfi_slots as a WebAssembly module, which checker.sh turned into C. The
   module has no constants and keeps nothing, so each call makes it anew, over the stack of the checker's, which isn't at
   work then. It may access nothing but that and the slots (reach.h). Where it can't go on, the answer is false. */
#include "decisions.h"

#include "checker.h"
#include "internal.h"
#include "reach.h"
#include "slots_wasm.h"

_Static_assert(sizeof(struct sfi_bounds) == 20 && sizeof(struct sfi_version) == 36 && sizeof(struct sfi_slot) == 80,
               "the structs as the module has them");

/* While it works: another module may have been interrupted for it, between pieces of an image. */
struct interrupted {
    struct reach reach;
    void *stopped[STOPPED_WORDS];
};

static struct interrupted make_way(const struct sfi_slot *slots, size_t count) {
    struct interrupted before = {.reach = sfi_device_image_reach};
    memcpy(before.stopped, sfi_device_stopped, sizeof before.stopped);
    sfi_device_image_reach = (struct reach){in_module(slots), (uint32_t)(count * sizeof *slots)};
    return before;
}

static void go_on(const struct interrupted *before) {
    sfi_device_image_reach = before->reach;
    memcpy(sfi_device_stopped, before->stopped, sizeof before->stopped);
}

/* One of the module's calls, with its instance as `module` and the slots' address there as `place`. */
#define DECIDE(call)                                                \
    Z_slots_instance_t module;                                      \
    const uint32_t place = in_module(slots);                        \
    const struct interrupted before = make_way(slots, count);       \
    bool answer = false;                                            \
    if (__builtin_setjmp(sfi_device_stopped) == 0) {                \
        Z_slots_init_module();                                      \
        Z_slots_instantiate(&module);                               \
        answer = (call);                                            \
    }                                                               \
    go_on(&before);                                                 \
    return answer

static bool clear(struct sfi_slot *slots, size_t count) {
    DECIDE((Z_slotsZ_sfi_slots_clear(&module, place, count), true));
}

void sfi_device_slots_clear(struct sfi_slot *slots, size_t count) {
    clear(slots, count);
}

bool sfi_device_slots_accept(struct sfi_slot *slots, size_t count, uint32_t number, const struct sfi_bounds *bounds) {
    sfi_device_checker_memory.bounds = *bounds;
    DECIDE(Z_slotsZ_sfi_slots_accept(&module, place, count, number, in_module(&sfi_device_checker_memory.bounds)));
}

bool sfi_device_slots_try(struct sfi_slot *slots, size_t count, uint32_t number, uint32_t turns) {
    DECIDE(Z_slotsZ_sfi_slots_try(&module, place, count, number, turns));
}

bool sfi_device_slots_write(struct sfi_slot *slots, size_t count, uint32_t number, uint32_t bytes) {
    DECIDE(Z_slotsZ_sfi_slots_write(&module, place, count, number, bytes));
}

bool sfi_device_slots_may_enter(const struct sfi_slot *slots, size_t count, uint32_t number, uint32_t pc) {
    DECIDE(Z_slotsZ_sfi_slots_may_enter(&module, place, count, number, pc));
}

#define DECISION(name)                                                                      \
    bool sfi_device_slots_##name(struct sfi_slot *slots, size_t count, uint32_t number) {   \
        DECIDE(Z_slotsZ_sfi_slots_##name(&module, place, count, number));                   \
    }

DECISION(begin)
DECISION(refuse)
DECISION(place)
DECISION(turn)
DECISION(confirm)
DECISION(roll_back)
DECISION(remove)
