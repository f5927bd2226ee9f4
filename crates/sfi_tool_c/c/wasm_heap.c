/*
 * A heap for WebAssembly without a C library: malloc, realloc and free over the memory behind __heap_base, which grows. It is
 * trusted, and not proved.
 *
 * A block is 16 bytes of head and then its own bytes, a power of two of at least 16. The head holds the power's exponent. A
 * free block goes to the list of its exponent, and is taken from there again: so a block is never split or joined, and at
 * most half of a block's bytes are wasted. Exponents above 40 are refused: no module has such a memory.
 */
#include <stddef.h>
#include <stdint.h>

#define PAGE 65536u
#define LEAST 4
#define MOST 40

extern uint8_t __heap_base;

struct block {
    uint64_t exponent;
    struct block *next; /* in the list of free blocks */
};

_Static_assert(sizeof(struct block) == 16, "the head keeps a block's alignment");

static struct block *lists[MOST + 1];
static uintptr_t front; /* the first address that no block has had */

static struct block *fresh(unsigned exponent) {
    if (front == 0)
        front = ((uintptr_t)&__heap_base + 15) & ~(uintptr_t)15;
    uintptr_t end = front + sizeof(struct block) + ((uintptr_t)1 << exponent);
    uintptr_t pages = __builtin_wasm_memory_size(0), wanted = (end + PAGE - 1) / PAGE;
    /* A fresh kilobyte at a time is slow, and a megabyte more than was asked for may not be there. */
    if (wanted > pages && __builtin_wasm_memory_grow(0, wanted - pages + 16) == (uintptr_t)-1 &&
        __builtin_wasm_memory_grow(0, wanted - pages) == (uintptr_t)-1)
        return NULL;
    struct block *made = (struct block *)front;
    front = end;
    return made;
}

void *malloc(size_t size) {
    unsigned exponent = LEAST;
    while (exponent <= MOST && ((size_t)1 << exponent) < size)
        exponent++;
    if (exponent > MOST)
        return NULL;
    struct block *block = lists[exponent];
    if (block)
        lists[exponent] = block->next;
    else
        block = fresh(exponent);
    if (!block)
        return NULL;
    block->exponent = exponent;
    return block + 1;
}

void free(void *given) {
    if (!given)
        return;
    struct block *block = (struct block *)given - 1;
    block->next = lists[block->exponent];
    lists[block->exponent] = block;
}

void *realloc(void *given, size_t size) {
    if (!given)
        return malloc(size);
    struct block *block = (struct block *)given - 1;
    size_t room = (size_t)1 << block->exponent;
    if (size <= room)
        return given;
    void *made = malloc(size);
    if (!made)
        return NULL;
    __builtin_memcpy(made, given, room);
    free(given);
    return made;
}
