/*
 * sfi_run.h at native speed: libsfi_run_native in the place of libsfi_run. Calls, events, numbers, steps, and what a caller owes
 * are those of sfi_run.h, and a host is linked with the one or the other.
 *
 * sfi_run_module_new and sfi_run_load judge an image as libsfi_run does. On Linux on x86-64, where the data of all its sandboxes are
 * whole pages of 4096 bytes, they compile it, too, and its worlds run by that code; the worlds of a module share it. Where that can't
 * be, or there is no memory for it, its worlds are those of libsfi_run, step by step: sfi_run_engine says which they are. What
 * differs:
 *
 * - Proved are the checker, the compiler and the interpreter; that a world of native code does what sfi_run.h says is not
 *   (docs/THEOREM.md says what is trusted).
 * - The data of a native sandbox are a map between two guard zones, of which a process has 20,000 at most, and fewer where other maps
 *   take more than some thousand of its 65530; where there is none for a new world, that world goes step by step.
 * - In the fourth format that map lies in 4 GiB of addresses, closed but for the data: no memory, but addresses, which `ulimit -v`
 *   counts (20,000 such sandboxes take 80 of a process's 128 TiB), and 8 KiB of page tables once the data are touched.
 * - The first native world handles SIGSEGV and SIGBUS: what is no sandbox's fault goes to the handler before. One that is set later has to
 *   hand on what isn't its own. These signals may not be blocked where turns are taken. A shared library stays loaded.
 * - sfi_run_reset of data above 128 KiB costs what the pages do that were touched.
 * - sfi_run_until takes a step at a time, and so do sandboxes that sfi_run_add adds to a native world of a module that isn't, or
 *   where there is no room for those 4 GiB.
 * - sfi_run_module_new and sfi_run_load want a stack of SFI_RUN_NATIVE_STACK bytes, and memory for a moment: some 20 bytes for each of
 *   the image.
 * - A console serves worlds of one engine, that of the first: a turn of a world of the other returns false.
 */
#ifndef SFI_RUN_NATIVE_H
#define SFI_RUN_NATIVE_H

#include "sfi_run.h"

#ifdef __cplusplus
extern "C" {
#endif

#define SFI_RUN_NATIVE_STACK 262144

/* How the sandboxes of a world run. */
enum sfi_run_engine {
    SFI_RUN_NO_ENGINE = 0,   /* there is no world */
    SFI_RUN_INTERPRETED = 1, /* one of them, at least, step by step */
    SFI_RUN_NATIVE = 2       /* all by native code */
};

uint32_t sfi_run_engine(const struct sfi_run_world *world);

/* Where the host can read and write the data of a native sandbox itself, between two calls: its first byte, or NULL where it isn't
 * native. They are as many as sfi_run_data says, and stay there until the sandbox is removed or the world is freed:
 *
 *     uint8_t *bytes = sfi_native_data(&world, 0);
 *     if (bytes != NULL && sfi_run_data(&world, 0, &data))
 *         bytes[address - data.base] = 7;
 *
 * with the address of a byte of the sandbox's data, as a function of it has answered, which the host compares with data.base and
 * data.size. */
uint8_t *sfi_native_data(struct sfi_run_world *world, uint32_t sandbox);

#ifdef __cplusplus
}
#endif

#endif
