/* The gates that a sandboxed program calls, in C or C++, in the order of their services' numbers: tools/suygapid/services.py reads
   them here. docs/GATES.md says what the console answers. With -DNATIVE_GATES a program of one file has the gates in it, over
   standard input and output: compiled natively, it is the one sandbox, number 0. */
#ifndef GATES_H
#define GATES_H

#ifdef __cplusplus
extern "C" {
#endif

/* Before a function or an object that is defined: a host finds it by its name, as by `sfi-cc --export`. Before a function's
   declaration: it is a gate of its name that the host serves, as by `sfi-cc --import`. In C++ both want extern "C". */
#define SFI_EXPORT __attribute__((used, visibility("protected")))
#define SFI_IMPORT __attribute__((weak, visibility("protected")))

/* Two parameters of such a function, NAME and NAME_size: bytes that it reads, or, as SFI_BUFFER, reads and writes, and how many. The
   image's table of names then says so (`sfi-cc` writes each function's signature into it), and a host passes one value for both. */
typedef const unsigned char *sfi_bytes;
typedef unsigned sfi_bytes_size;
typedef unsigned char *sfi_buffer;
typedef unsigned sfi_buffer_size;
#define SFI_BYTES(name) sfi_bytes name, sfi_bytes_size name##_size
#define SFI_BUFFER(name) sfi_buffer name, sfi_buffer_size name##_size

/* Ends the program with a code. Returning from main does the same. */
__attribute__((noreturn)) void exit_with(int code);

/* Appends length bytes to the output. Answers length, or -1 where length is above 65536, a byte lies outside the
   data region, or the output would pass 1048576 bytes. */
long put(const void *bytes, unsigned length);

/* Reads the next bytes of the input, at most length, and answers how many: 0 at its end, -1 where length is above
   65536 or a byte lies outside the data region. */
long get(void *bytes, unsigned length);

/* Ends the turn; the call returns in this sandbox's next turn. */
void yield_turn(void);

/* Puts a word at the end of the mailbox of sandbox number `to`, and doesn't wait. Answers 0, 1 where that mailbox is
   full (16 words), or -1 where there is no such sandbox. Sandboxes are numbered from 0, in the order of the image. */
int post_word(unsigned to, unsigned word);

/* A word that was in this sandbox's mailbox, and the number of its sender plus 1. */
struct taken_word {
    unsigned word;
    unsigned sender;
};

/* Takes the oldest word out of this sandbox's mailbox, and doesn't wait: both members are 0 where it is empty. The
   sender is who it says; the word may be any. */
struct taken_word take_word(void);

#ifdef NATIVE_GATES
#include <stdio.h>
#include <stdlib.h>

void exit_with(int code) {
    exit(code);
}

long put(const void *bytes, unsigned length) {
    return length > 65536 ? -1 : (long)fwrite(bytes, 1, length, stdout);
}

long get(void *bytes, unsigned length) {
    return length > 65536 ? -1 : (long)fread(bytes, 1, length, stdin);
}

void yield_turn(void) {
}

static struct {
    unsigned words[16], oldest, held;
} gates_mailbox;

int post_word(unsigned to, unsigned word) {
    if (to != 0)
        return -1;
    if (gates_mailbox.held == 16)
        return 1;
    gates_mailbox.words[(gates_mailbox.oldest + gates_mailbox.held++) % 16] = word;
    return 0;
}

struct taken_word take_word(void) {
    struct taken_word none = {0, 0}, found = {gates_mailbox.words[gates_mailbox.oldest], 1};
    if (gates_mailbox.held == 0)
        return none;
    gates_mailbox.oldest = (gates_mailbox.oldest + 1) % 16;
    gates_mailbox.held--;
    return found;
}
#endif

#ifdef __cplusplus
}
#endif

#endif
