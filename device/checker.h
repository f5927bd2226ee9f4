/* What the checker of the device needs of memory. */
#ifndef CHECKER_H
#define CHECKER_H

#include <stdint.h>

#include "sfi.h"
#include "sfi_slots.h"

#ifndef MODULE_STACK
#define MODULE_STACK 4096       /* as much of LINKED_STACK is there: the last addresses */
#endif

enum {
    LINKED_STACK = 65536,       /* checker.sh gives this number to the linker: the least that it takes */
    MODULE_DATA = 4096,         /* at least the module's constants */
    MODULE_GATES = 64           /* no sandbox has more */
};

/* struct sfi_part as the module writes it: addresses have 64 bits there. */
struct module_part {
    uint32_t format, code_base, code_size, data_base, data_size, start, gates, init_size;
    uint64_t code_offset, init_offset;
};
_Static_assert(sizeof(struct module_part) == 48, "struct sfi_part of the module");

/* The module's own memory, from its address LINKED_STACK - MODULE_STACK on. */
struct checker_memory {
    uint8_t stack[MODULE_STACK], data[MODULE_DATA];
    struct sfi_stream stream;
    struct sfi_verdict verdict;
    struct module_part part;
    union {
        struct module_part other_part;
        struct sfi_bounds bounds;
    };
    struct sfi_gate gates[MODULE_GATES];
};
extern struct checker_memory sfi_device_checker_memory;

#endif
