/* What heap.c takes of stdlib.h, where there is no C library: wasm_heap.c has it. */
#pragma once
#include <stddef.h>
void *malloc(size_t size);
void *realloc(void *block, size_t size);
void free(void *block);
