/*
 * The commands of Suygapid's program `sfi` for hosts in C and C++: what the program would print, and its status.
 *
 * A call reads nothing but its arguments, keeps nothing, starts no thread, and reads and writes no file. It takes memory by
 * malloc and has given all of it back by free when it returns. What is proved (docs/PROOFS.md): status 0 or 1 means that the
 * text is the command's answer on what was read, status 2 that it is the line of the fault that the command has on what was
 * read, or of an `--input` that spells no bytes, and status 3 that the words ask for no command.
 *
 * What a caller owes, since nothing checks it:
 *
 * - Each pointer is not NULL and is aligned, also where its length is 0. Its bytes can be read, and written where it isn't
 *   const, and are fewer than PTRDIFF_MAX. What the arguments of a call point to doesn't overlap, and nothing else reads or
 *   writes it during the call.
 * - What malloc, realloc and free are to heap.c (crates/sfi_run/c/heap.c, which is linked) is one allocator, which keeps
 *   what the C standard says.
 */
#ifndef SFI_TOOL_H
#define SFI_TOOL_H

#include <stddef.h>
#include <stdint.h>

#ifdef __cplusplus
extern "C" {
#endif

/* The statuses, as the program ends with them (README.md). */
enum sfi_tool_status {
    SFI_TOOL_DONE = 0,
    SFI_TOOL_REFUSED = 1,
    SFI_TOOL_FAULT = 2,
    SFI_TOOL_USAGE = 3,
    SFI_TOOL_NO_MEMORY = 4
};

/*
 * Answers the command that the words ask for, on the input that it would read. Each word has a zero byte after it and none
 * in it, and the first is the program's name: "sfi\0check\0--report\0", of 19 bytes (`sizeof` of that literal less 1, since
 * C puts another zero byte at its end).
 *
 * Writes the front of the answer's text to `output`, as much as its `room` holds, and the length of the whole text to
 * `*length`: where that is more than `room`, call again with so much. Returns the status. With SFI_TOOL_NO_MEMORY nothing is
 * written, and `*length` is 0. SFI_TOOL_USAGE also means that a word isn't UTF-8, or that the last has no zero byte after it.
 */
uint32_t sfi_tool_answer(const uint8_t *words, size_t words_length, const uint8_t *input, size_t input_length,
                         uint8_t *output, size_t room, size_t *length);

#ifdef __cplusplus
}
#endif

#endif
