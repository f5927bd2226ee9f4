/* The proved checker: the library of crates/sfi_c as a WebAssembly module, which checker.sh turned into C, and the few
   functions that such C asks for. It reads the image where that lies, and may access nothing but that and
   sfi_device_checker_memory (reach.h). */
#include "checker.h"

#include "internal.h"
#include "reach.h"
#include "sfi_wasm.h"

struct checker_memory sfi_device_checker_memory __attribute__((aligned(16)));
static Z_sfi_instance_t module;
struct reach sfi_device_image_reach;

static struct reach judged; /* the image that was accepted last: nothing while one is judged */
static bool is_judging;     /* between pieces the firmware may call what it likes: nothing then is done in the module */

enum { PIECE = 2048 }; /* bytes of an image that are judged at a time */

_Static_assert((int)MODULE_GATES == (int)SFI_DEVICE_GATES_MOST, "the gates of the module are those of a part");

/* ---- For the C that wasm2c made */

/* Where the module can't go on: each call below then has no other answer than that. It is called from within these, and
   those of decisions.c, alone. */
void *sfi_device_stopped[STOPPED_WORDS];

_Noreturn void stop_module(void) {
    __builtin_longjmp(sfi_device_stopped, 1);
}

void wasm_rt_trap(wasm_rt_trap_t cause) {
    (void)cause;
    stop_module();
}

void wasm_rt_allocate_memory(wasm_rt_memory_t *memory, uint32_t pages, uint32_t most) {
    (void)pages, (void)most; /* nothing grows it */
    memory->data = (uint8_t *)((uintptr_t)&sfi_device_checker_memory - (LINKED_STACK - MODULE_STACK));
    memory->size = UINT32_MAX; /* module_reaches decides */
}

void wasm_rt_free_memory(wasm_rt_memory_t *memory) {
    (void)memory;
}

/* The module calls no function by a table, so nobody asks for its types. */
uint32_t wasm_rt_register_func_type(uint32_t parameters, uint32_t results, ...) {
    return 0 * (parameters + results);
}

void *memmove(void *to, const void *from, size_t length) {
    move_bytes(to, from, length);
    return to;
}

/* ---- For the firmware */

/* Feeds the image in pieces of PIECE bytes, until it is refused. Answers how many bytes. */
static uint32_t feed_pieces(uint32_t stream, const uint8_t *image, uint32_t length, void (*between_pieces)(void *), void *host) {
    uint32_t done = 0;
    while (done < length && !Z_sfiZ_sfi_c_refused(&module, stream)) {
        uint32_t left = length - done;
        uint32_t piece = left < PIECE ? left : PIECE;
        Z_sfiZ_sfi_c_feed(&module, stream, in_module(image + done), piece);
        if (between_pieces)
            between_pieces(host);
        done += piece;
    }
    return done;
}

static enum sfi_device_status judge_pieces(const uint8_t *image, uint32_t length, void (*between_pieces)(void *), void *host,
                                           struct sfi_verdict *verdict) {
    uint32_t stream = in_module(&sfi_device_checker_memory.stream);
    if (*Z_sfiZ___heap_base(&module) > stream)
        return SFI_DEVICE_CHECKER_STOPPED; /* there is no room for it */
    /* Not sfi_c_check, whose code for vectors is five times as long, and slower where there are none. */
    Z_sfiZ_sfi_c_begin(&module, stream);
    uint32_t fed = feed_pieces(stream, image, length, between_pieces, host);
    Z_sfiZ_sfi_c_end(&module, stream, in_module(&sfi_device_checker_memory.verdict));
    *verdict = sfi_device_checker_memory.verdict;
    /* Of a broken rule sfi_c_end tells after the image's last byte alone. */
    if (fed < length && verdict->layout_fault == SFI_FAULT_SHORT)
        *verdict = (struct sfi_verdict){.status = SFI_REFUSED};
    return verdict->status == SFI_ACCEPTED ? SFI_DEVICE_DONE : SFI_DEVICE_NOT_ACCEPTED;
}

/* Whether the bytes are memory that the module doesn't write. */
static bool is_apart_from_module(const uint8_t *image, uint32_t length) {
    uint64_t from = (uint32_t)(uintptr_t)image, to = from + length, own = (uint32_t)(uintptr_t)&sfi_device_checker_memory;
    return (image != NULL || length == 0) && to <= (uint64_t)UINT32_MAX + 1 &&
           (to <= own || from >= own + sizeof sfi_device_checker_memory);
}

enum sfi_device_status sfi_device_check(const uint8_t *image, uint32_t length, void (*between_pieces)(void *host),
                                        void *host, struct sfi_verdict *verdict) {
    if (is_judging)
        return SFI_DEVICE_BUSY;
    if (!is_apart_from_module(image, length) || verdict == NULL)
        return SFI_DEVICE_CHECKER_STOPPED;
    memset((uint8_t *)&sfi_device_checker_memory + MODULE_STACK, 0, sizeof sfi_device_checker_memory - MODULE_STACK);
    judged = (struct reach){0, 0};
    sfi_device_image_reach = (struct reach){in_module(image), length};
    is_judging = true;
    if (__builtin_setjmp(sfi_device_stopped) != 0) {
        is_judging = false;
        return SFI_DEVICE_CHECKER_STOPPED;
    }
    Z_sfi_init_module();
    Z_sfi_instantiate(&module);
    enum sfi_device_status status = judge_pieces(image, length, between_pieces, host, verdict);
    is_judging = false;
    if (status == SFI_DEVICE_DONE)
        judged = sfi_device_image_reach;
    return status;
}

static bool is_judged(const uint8_t *image, uint32_t length) {
    return length > 0 && in_module(image) == judged.first && length == judged.size;
}

/* What the module is told, in its own memory. */
static uint32_t told(struct module_part *place, const struct sfi_device_part *part) {
    *place = (struct module_part){.code_base = part->code_base, .code_size = part->code_size,
                                  .data_base = part->data_base, .data_size = part->data_size};
    return in_module(place);
}

bool sfi_device_are_apart(const struct sfi_device_part *one, const struct sfi_device_part *other) {
    if (is_judging || __builtin_setjmp(sfi_device_stopped) != 0)
        return false;
    return Z_sfiZ_sfi_c_apart(&module, told(&sfi_device_checker_memory.part, one),
                              told(&sfi_device_checker_memory.other_part, other));
}

bool sfi_device_move(uint8_t *image, uint32_t length, uint32_t number, uint32_t code_base, uint32_t data_base) {
    if (!is_judged(image, length))
        return false;
    if (__builtin_setjmp(sfi_device_stopped) != 0)
        return false;
    return Z_sfiZ_sfi_c_move(&module, in_module(image), length, number, code_base, data_base) == SFI_FOUND;
}

static enum sfi_device_status tell_gates(const uint8_t *image, uint32_t length, uint32_t number, struct sfi_device_part *part) {
    const struct sfi_gate *told = sfi_device_checker_memory.gates;
    if (Z_sfiZ_sfi_c_gates(&module, in_module(image), length, number, in_module(told), MODULE_GATES) != SFI_FOUND)
        return SFI_DEVICE_CHECKER_STOPPED; /* never where it has told of the sandbox */
    for (uint32_t index = 0; index < part->gate_count; index++)
        part->gates[index] = (struct sfi_device_gate){told[index].address, told[index].service};
    return SFI_DEVICE_DONE;
}

enum sfi_device_status sfi_device_tell(const uint8_t *image, uint32_t length, uint32_t number, struct sfi_device_part *part) {
    const struct module_part *told = &sfi_device_checker_memory.part;
    if (!is_judged(image, length))
        return SFI_DEVICE_NOT_ACCEPTED;
    if (__builtin_setjmp(sfi_device_stopped) != 0)
        return SFI_DEVICE_CHECKER_STOPPED;
    if (Z_sfiZ_sfi_c_part(&module, in_module(image), length, number, in_module(told)) != SFI_FOUND)
        return SFI_DEVICE_NO_SANDBOX;
    part->format = told->format;
    part->code_base = told->code_base;
    part->code_size = told->code_size;
    part->data_base = told->data_base;
    part->data_size = told->data_size;
    part->start = told->start;
    part->gate_count = told->gates;
    part->first_count = told->init_size;
    part->code = image + told->code_offset;
    part->first = image + told->init_offset;
    return part->gate_count > 0 ? tell_gates(image, length, number, part) : SFI_DEVICE_DONE;
}
