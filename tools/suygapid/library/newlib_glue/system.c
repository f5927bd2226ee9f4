/* What newlib asks of an operating system wherever a program runs: memory and the end. There are no other processes. */
#include <errno.h>
#include <stdint.h>
#include <stdlib.h>
#include <string.h>
#undef errno
extern int errno;

#include "gates.h"

#define ERRORS 2

void *__dso_handle; /* what C++ hands to __cxa_atexit beside a destructor: the program, of which there is one */
extern int _write(int stream, const void *bytes, size_t count);

void *__heap_more(int more); /* of the runtime */

void _exit(int code) {
    for (;;)
        exit_with(code);
}

void *_sbrk(ptrdiff_t more) {
    void *before = __heap_more(more);
    if (before)
        return before;
    errno = ENOMEM;
    return (void *)-1;
}

static void tell(const char *text) {
    _write(ERRORS, text, strlen(text));
}

static void tell_number(unsigned number) {
    char digits[12], *at = digits + sizeof digits;
    *--at = 0;
    do
        *--at = '0' + number % 10;
    while (number /= 10);
    tell(at);
}

/* In newlib's words, and without its printf: newlib's own conversion of doubles has asserts. */
void __assert_func(const char *file, int line, const char *function, const char *failed) {
    tell("assertion \"");
    tell(failed);
    tell("\" failed: file \"");
    tell(file);
    tell("\", line ");
    tell_number(line);
    if (function) {
        tell(", function: ");
        tell(function);
    }
    tell("\n");
    abort();
}

void __assert(const char *file, int line, const char *failed) {
    __assert_func(file, line, NULL, failed);
}

/* The exit code is the one that a shell has of a program that a signal ended. */
int _kill(int process, int signal) {
    (void)process;
    _exit(128 + signal);
    return 0;
}

int _getpid(void) {
    return 1;
}
