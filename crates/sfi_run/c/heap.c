/*
 * The heap of libsfi_run.a: what the toolchain's own library asks for where it takes and gives back memory. Compile it with
 * the host. It is trusted, and not proved.
 *
 * A block of 0 bytes isn't asked for: `malloc(0)` may answer NULL, which would look as if there were no memory. Where there
 * is none, the pointer of the answer isn't used, but may not be NULL. No alignment above that of malloc is asked for.
 */
#include <stdbool.h>
#include <stddef.h>
#include <stdint.h>
#include <stdlib.h>

struct tried {
    bool done;
    void *block;
};

static struct tried tried(void *block) {
    static uint8_t none;
    return (struct tried){block != NULL, block != NULL ? block : &none};
}

struct tried rattle_alloc(size_t size, size_t alignment) {
    return tried(malloc(size ? size : alignment));
}

struct tried rattle_realloc(void *block, size_t kept, size_t size, size_t alignment) {
    (void)kept;
    return tried(realloc(block, size ? size : alignment));
}

void rattle_dealloc(void *block) {
    free(block);
}
