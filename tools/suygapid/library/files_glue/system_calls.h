/* What a program asks of a host that has files, a clock and random bytes, by one gate that the host knows by its name. docs/GATES.md
   says what each operation answers. */
#ifndef SYSTEM_CALLS_H
#define SYSTEM_CALLS_H

#include "gates.h"

/* The numbers are far below all answers: a host that doesn't know the gate leaves a0 as it is. */
enum operation {
    SYSTEM_WORDS = -0x10000, /* at, room: the words and the environment that the program is started with */
    SYSTEM_OPEN,             /* path, its length, flags, mode: a stream */
    SYSTEM_CLOSE,            /* stream */
    SYSTEM_READ,             /* stream, at, length: how many bytes */
    SYSTEM_WRITE,            /* stream, at, length: how many bytes */
    SYSTEM_SEEK,             /* stream, offset, whence: the place */
    SYSTEM_STATUS,           /* stream, at */
    SYSTEM_STATUS_OF,        /* path, its length, at */
    SYSTEM_TRUNCATE,         /* stream, size */
    SYSTEM_SYNC,             /* stream */
    SYSTEM_UNLINK,           /* path, its length */
    SYSTEM_RENAME,           /* path, its length, new path, its length */
    SYSTEM_MAKE_FOLDER,      /* path, its length, mode */
    SYSTEM_REMOVE_FOLDER,    /* path, its length */
    SYSTEM_CLOCK,            /* which one, at */
    SYSTEM_RANDOM            /* at, length */
};

enum { SYSTEM_READS = 1, SYSTEM_WRITES = 2, SYSTEM_CREATES = 4, SYSTEM_IS_NEW = 8, SYSTEM_EMPTIES = 16, SYSTEM_APPENDS = 32 }; /* flags */
enum { SYSTEM_FROM_START, SYSTEM_FROM_HERE, SYSTEM_FROM_END };       /* whence */
enum { SYSTEM_TIME, SYSTEM_MONOTONIC };                         /* clocks */
enum { SYSTEM_OTHER, SYSTEM_FILE, SYSTEM_FOLDER };              /* kinds */

struct system_status {
    unsigned kind, number, links, size;
    unsigned long long modified; /* nanoseconds since 1970 */
};

/* The answer, or below 0 an error's number in newlib's errno.h. */
SFI_IMPORT int sfi_system(int operation, ...);

#endif
