/* One turn of the first sandbox of a translated image, in WebAssembly (test.py): clang --target=wasm32, without a C library. */
#include "sfi_native.h"

enum { LARGEST = 1048576 };
static uint8_t data[LARGEST];
static struct sfi_hart hart;
static sfi_u32 at;

/* Begins as `sfi run` does, and takes `steps` steps at most: how the turn ended. */
__attribute__((export_name("turn"))) int turn(sfi_u32 steps) {
    const struct sfi_sandbox *s = &sfi_sandboxes[0];
    memcpy(data, s->first_data, s->init);
    hart.data = data;
    hart.left = steps;
    sfi_begin(s, &hart, s->start);
    return sfi_turn(s, &hart, &at);
}

/* The steps that are left, and the address of a trap. */
__attribute__((export_name("left"))) sfi_u32 left(void) {
    return hart.left;
}

__attribute__((export_name("place"))) sfi_u32 place(void) {
    return at;
}
