/*
 * The checker of Suygapid in one file of C11: whether the bytes of an image are accepted, and if not, why.
 *
 *     cc -std=c11 -O2 -DSUYGAPID_CHECK_MAIN suygapid_check.c -o check && ./check < image.bytes
 *
 * With SUYGAPID_CHECK_MAIN it is a program that says of the bytes on standard input what `sfi check --raw` says, and ends as
 * that does. Without it, it has the calls of sfi.h, whose text is below, and is linked like any file of a program's. It
 * takes no memory from a heap and some 40 KiB of stack, and wants a little-endian machine and a compiler with __builtin_clz (gcc, clang).
 *
 * tools/checker_file.py made this file. Don't edit it. What is trusted beside the proof of the crate sfi_c: Rattle's
 * compiler and linker for WebAssembly, which built the proved crate; wasm-opt, which lowers its addresses from 64 to 32 bits; wasm2c
 * of wabt 1.0.32, which wrote it as C; the accesses and calls in the parts "Where the module may access" and "The calls of
 * sfi.h", which were written by hand; and your compiler. Each access of the module is tested: one outside its own memory
 * and the caller's arguments ends the program by abort(), and so does a trap.
 *
 * The parts that come from wabt are under the Apache License, Version 2.0, as their head says.
 */

/* Files of a program that are made in this way have names of their own for what they trap by. */
#define wasm_rt_trap suygapid_check_trap
#define wasm_rt_allocate_memory suygapid_check_allocate_memory
#define wasm_rt_free_memory suygapid_check_free_memory
#define wasm_rt_allocate_funcref_table suygapid_check_allocate_funcref_table
#define wasm_rt_free_funcref_table suygapid_check_free_funcref_table
#define wasm_rt_register_func_type suygapid_check_register_func_type
