
/* ---- Where the module may access: its own stack and constants, and what the caller gave */

#if defined(__BYTE_ORDER__) && __BYTE_ORDER__ != __ORDER_LITTLE_ENDIAN__
#error "the machine has to be little-endian"
#endif

enum { LINKED_STACK = 65536, MODULE_STACK = 24576, MODULE_DATA = 8192 };

/* As the module has struct sfi_part, with addresses of 64 bits. */
struct module_part {
    uint32_t fields[8];
    uint64_t code_offset, init_offset;
};

/* The module's own memory, from its address LINKED_STACK - MODULE_STACK on: the end of its stack, its constants, and what
   is handed to a call. */
struct own_memory {
    uint8_t stack[MODULE_STACK], data[MODULE_DATA];
    struct sfi_stream stream;
    struct sfi_verdict verdict;
    struct module_part part, other_part;
    struct sfi_gate gate;
};

/* Bytes of the caller's, and at which address the module sees them. */
struct view {
    uint8_t *bytes;
    uint64_t first, length;
};

enum { IMAGE_AT = 0x20000000, ARRAY_AT = 0x40000000, MOST = 0x10000000 };

struct call {
    Z_sfi_instance_t module;
    const uint8_t *image;
    struct view own, array;
    uint64_t length;
    struct own_memory memory;
};

static const struct call *call_of(const wasm_rt_memory_t *memory) {
    return (const struct call *)((const char *)memory - offsetof(struct call, module.w2c_memory));
}

static bool lies_in(uint64_t at, uint64_t size, uint64_t first, uint64_t length) {
    return at >= first && size <= length && at - first <= length - size;
}

/* Where the module writes `size` bytes at its address `at`. */
static uint8_t *written_place(const wasm_rt_memory_t *memory, uint64_t at, uint64_t size) {
    const struct call *call = call_of(memory);
    const struct view *view = at >= ARRAY_AT ? &call->array : &call->own;
    if (!lies_in(at, size, view->first, view->length))
        abort();
    return view->bytes + (at - view->first);
}

/* Where it reads them. */
static const uint8_t *read_place(const wasm_rt_memory_t *memory, uint64_t at, uint64_t size) {
    const struct call *call = call_of(memory);
    if (lies_in(at, size, IMAGE_AT, call->length))
        return call->image + (at - IMAGE_AT);
    return written_place(memory, at, size);
}

void wasm_rt_trap(wasm_rt_trap_t cause) {
    (void)cause;
    abort();
}

void wasm_rt_allocate_memory(wasm_rt_memory_t *memory, uint32_t pages, uint32_t most) {
    (void)most; /* nothing grows it */
    memory->pages = pages;
}

void wasm_rt_free_memory(wasm_rt_memory_t *memory) {
    (void)memory;
}

/* The module calls no function by a table. */
void wasm_rt_allocate_funcref_table(wasm_rt_funcref_table_t *table, uint32_t elements, uint32_t most) {
    (void)elements, (void)most;
    table->size = 0;
}

void wasm_rt_free_funcref_table(wasm_rt_funcref_table_t *table) {
    (void)table;
}

uint32_t wasm_rt_register_func_type(uint32_t parameters, uint32_t results, ...) {
    return 0 * (parameters + results);
}

