/* Where the module may read and write: the C that wasm2c made asks this before each access. */
#ifndef REACH_H
#define REACH_H

#include <stdbool.h>
#include <stdint.h>

#include "checker.h"

/* Addresses of the module. */
struct reach {
    uint32_t first, size;
};
extern struct reach sfi_device_image_reach;

enum { STOPPED_WORDS = 5 };     /* of __builtin_setjmp */
extern void *sfi_device_stopped[STOPPED_WORDS];

#define IN_EACH_ACCESS __attribute__((always_inline)) static inline

IN_EACH_ACCESS bool lies_in(uint32_t at, uint32_t length, struct reach reach) {
    return length <= reach.size && at - reach.first <= reach.size - length;
}

/* Whether the addresses of the module from `at` on are its own memory's, or the image's. */
IN_EACH_ACCESS bool module_reaches(uint64_t at, uint32_t length) {
    const struct reach own = {LINKED_STACK - MODULE_STACK, sizeof(struct checker_memory)};
    uint32_t address = (uint32_t)at;
    return at == address && (lies_in(address, length, own) || lies_in(address, length, sfi_device_image_reach));
}

/* That address in the module. Those wrap in 32 bits, as the processor's do. */
static inline uint32_t in_module(const void *place) {
    return (uint32_t)(uintptr_t)place - (uint32_t)(uintptr_t)&sfi_device_checker_memory + (LINKED_STACK - MODULE_STACK);
}

/* The byte at that address of the module. */
IN_EACH_ACCESS uint8_t *module_byte(uint32_t address) {
    return (uint8_t *)((uintptr_t)&sfi_device_checker_memory - (LINKED_STACK - MODULE_STACK) + address);
}

/* Of a base in the module's stack, where most are, each offset below this lies in the module's own memory. */
enum { NEAR = 4096, STACK_BITS = 12 };
_Static_assert((int)NEAR <= (int)MODULE_DATA, "what is near the stack is the module's own");

/* Whether the base is one of the stack's: one shift tells, where that has 2^STACK_BITS bytes. */
IN_EACH_ACCESS bool is_in_stack(uint32_t base) {
    if (MODULE_STACK == 1 << STACK_BITS)
        return base >> STACK_BITS == LINKED_STACK / MODULE_STACK - 1;
    return base - (LINKED_STACK - MODULE_STACK) < MODULE_STACK;
}

/* Ends the call of the module (checker.c). */
_Noreturn void stop_module(void);

/* Stops unless the addresses of the module from `at` on may be accessed. */
__attribute__((noinline)) static void reach_exactly(uint32_t at, uint32_t length) {
    if (!lies_in(at, length, sfi_device_image_reach) && !module_reaches(at, length))
        stop_module();
}

/* Whether it is the module's own, as far as few instructions tell: in its stack, or by an offset that is a constant's address. */
IN_EACH_ACCESS bool is_surely_own(uint32_t base, uint32_t offset, uint32_t length) {
    if (offset < LINKED_STACK)
        return offset <= NEAR - length && is_in_stack(base);
    return lies_in(base + offset, length, (struct reach){LINKED_STACK, MODULE_DATA});
}

/* The place of the bytes from `base + offset` on, which may be accessed: else it stops. */
IN_EACH_ACCESS uint8_t *reached(uint32_t base, uint32_t offset, uint32_t length) {
    if (__builtin_expect(!is_surely_own(base, offset, length), 0))
        reach_exactly(base + offset, length);
    return module_byte(base) + offset;
}

/* Words at any address: one load or store where it is a multiple of 4, as it mostly is. */
typedef uint32_t __attribute__((may_alias)) module_word;

IN_EACH_ACCESS bool is_aligned(const uint8_t *place) {
    return __builtin_expect(((uintptr_t)place & 3) == 0, 1);
}

__attribute__((noinline)) static uint32_t read_bytes(const uint8_t *place) {
    const volatile uint8_t *bytes = place; /* else gcc takes both ways for one, by bytes */
    return bytes[0] | (uint32_t)bytes[1] << 8 | (uint32_t)bytes[2] << 16 | (uint32_t)bytes[3] << 24;
}

__attribute__((noinline)) static void write_bytes(uint8_t *place, uint32_t word) {
    for (uint32_t at = 0; at < 4; at++)
        place[at] = (uint8_t)(word >> 8 * at);
}

IN_EACH_ACCESS uint32_t read_word(const uint8_t *place) {
    return is_aligned(place) ? *(const module_word *)(const void *)place : read_bytes(place);
}

IN_EACH_ACCESS void write_word(uint8_t *place, uint32_t word) {
    if (is_aligned(place))
        *(module_word *)(void *)place = word;
    else
        write_bytes(place, word);
}

/* Reads and writes a value of 1, 2, 4 or 8 bytes at that place, as memcpy does, which gcc would call. */
IN_EACH_ACCESS void read_value(void *value, const uint8_t *place, uint32_t size) {
    uint64_t whole = place[0];
    if (size == 2)
        whole |= (uint32_t)place[1] << 8;
    if (size >= 4)
        whole = read_word(place);
    if (size == 8)
        whole |= (uint64_t)read_word(place + 4) << 32;
    __builtin_memcpy(value, &whole, size);
}

IN_EACH_ACCESS void write_value(uint8_t *place, const void *value, uint32_t size) {
    uint64_t whole = 0;
    __builtin_memcpy(&whole, value, size);
    if (size < 4)
        place[0] = (uint8_t)whole;
    if (size == 2)
        place[1] = (uint8_t)(whole >> 8);
    if (size >= 4)
        write_word(place, (uint32_t)whole);
    if (size == 8)
        write_word(place + 4, (uint32_t)(whole >> 32));
}

/* The module's functions for accesses: calls, and as `here_NAME` where they are made (accesses.py). */
#define AS_CALL __attribute__((noinline)) static
#define A_LOAD(kind, name, read, widened, result)                              \
    kind result name(wasm_rt_memory_t *memory, u32 base, u32 offset) {         \
        read value;                                                            \
        read_value(&value, reached(base, offset, sizeof value), sizeof value); \
        return (result)(widened)value;                                         \
    }
#define MODULE_LOAD(name, ...) A_LOAD(AS_CALL, name, __VA_ARGS__) A_LOAD(IN_EACH_ACCESS, here_##name, __VA_ARGS__)
#define A_STORE(kind, name, written, given)                                         \
    kind void name(wasm_rt_memory_t *memory, u32 base, u32 offset, given whole) {   \
        written value = (written)whole;                                             \
        write_value(reached(base, offset, sizeof value), &value, sizeof value);     \
    }
#define MODULE_STORE(name, ...) A_STORE(AS_CALL, name, __VA_ARGS__) A_STORE(IN_EACH_ACCESS, here_##name, __VA_ARGS__)

/* Copies a multiple of 16 bytes towards the front, at multiples of 4. */
static inline void move_words(uint8_t *to, const uint8_t *from, uint32_t length) {
    module_word *written = (module_word *)(void *)to;
    const module_word *read = (const module_word *)(const void *)from;
    for (; length > 0; length -= 16, written += 4, read += 4) {
        const uint32_t one = read[0], two = read[1], three = read[2], four = read[3];
        written[0] = one, written[1] = two, written[2] = three, written[3] = four;
    }
}

/* As memmove does, towards the front by words where both places allow it: the module moves whole structs. */
static inline void move_bytes(uint8_t *to, const uint8_t *from, uint32_t length) {
    uint32_t done = 0;
    if ((uintptr_t)to - (uintptr_t)from < length) {
        while (length-- > 0)
            to[length] = from[length];
        return;
    }
    if (is_aligned(to) && is_aligned(from)) {
        done = length & ~15u;
        move_words(to, from, done);
    }
    for (; done < length; done++)
        to[done] = from[done];
}

#endif
