/*
 * The runtime of Suygapid in one file of C11: worlds of sandboxes, as sfi_run.h has them, whose text is below.
 *
 *     cc -std=c11 -O2 host.c suygapid_run.c -o host        # host.c includes sfi_run.h, which includes sfi.h
 *
 * It is linked in the place of libsfi_run.a and heap.c. It asks no operating system for anything: of the C library it takes
 * memcpy, memmove, memset and abort, and malloc, realloc and free, but with -DSUYGAPID_RUN_OWN_HEAP the host's
 * suygapid_run_malloc, suygapid_run_realloc and suygapid_run_free, which are declared below, in their place. To be compiled
 * it wants a C library's headers (assert.h, math.h, setjmp.h, stdlib.h and string.h among them) and types float and double,
 * and at times functions of the compiler's own library, as gcc's __popcountdi2. It wants a little-endian machine with
 * addresses of 32 or 64 bits, and gcc or clang, which have atomic counts of owners; with -DSUYGAPID_RUN_NO_THREADS, for
 * machines without atomic instructions, all worlds of a module are used by one thread, and by no other task or interrupt
 * handler.
 * Where it was measured on x86-64, calls took at most 15 KB of stack, but without optimization (-O0) 101 KB.
 *
 * tools/runtime_file.py made this file. Don't edit it. What is trusted beside the proof of the crate sfi_run: Rattle's
 * compiler, which built the proved crate; tools/wasm_module.py, clang and wasm-ld, which made of its LLVM module one for wasm64; wabt
 * 1.0.32, whose wasm2c wrote that as C; tools/runtime_file.py, which made calls of its accesses to memory, and calls like
 * those of sfi_run.h; the parts "What the module takes of its host" and "The calls of sfi_run.h", which were written by
 * hand; heap.c of libsfi_run, which is in the module; and your compiler. Accesses aren't tested: as in libsfi_run, the proof
 * says where they go.
 *
 * The parts that come from wabt are under the Apache License, Version 2.0, as their head says.
 */
