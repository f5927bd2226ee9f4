/* What newlib asks of an operating system whose programs have the console's streams alone: no files, no clock. */
#include <errno.h>
#include <stdlib.h>
#include <sys/stat.h>
#include <sys/time.h>
#include <sys/times.h>
#undef errno
extern int errno;

#include "gates.h"

#define INPUT 0
#define ERRORS 2
#define BLOCK 512

extern int main(int, char **);

void _start(int argc, char **argv) {
    exit(main(argc, argv));
}

static int refused(int why) {
    errno = why;
    return -1;
}

/* A gate takes at most 65536 bytes a call; a number below 0 says that it failed. */
int _write(int stream, const void *bytes, size_t count) {
    if (stream <= INPUT || stream > ERRORS)
        return refused(EBADF);
    if (count == 0)
        return 0;
    int done = put(bytes, count < 65536 ? count : 65536);
    return done < 0 ? refused(EIO) : done;
}

int _read(int stream, void *bytes, size_t count) {
    if (stream != INPUT)
        return refused(EBADF);
    int done = get(bytes, count < 65536 ? count : 65536);
    return done < 0 ? refused(EIO) : done;
}

int _fstat(int stream, struct stat *status) {
    if (stream < INPUT || stream > ERRORS)
        return refused(EBADF);
    *status = (struct stat){.st_mode = S_IFCHR, .st_blksize = BLOCK};
    return 0;
}

int _isatty(int stream) {
    (void)stream;
    errno = ENOTTY;
    return 0;
}

int _close(int stream) {
    return stream < INPUT || stream > ERRORS ? refused(EBADF) : 0;
}

off_t _lseek(int stream, off_t offset, int whence) {
    (void)stream, (void)offset, (void)whence;
    return refused(ESPIPE);
}

int _open(const char *path, int flags, ...) {
    (void)path, (void)flags;
    return refused(ENOENT);
}

int _stat(const char *path, struct stat *status) {
    (void)path, (void)status;
    return refused(ENOENT);
}

int _unlink(const char *path) {
    (void)path;
    return refused(ENOENT);
}

int _link(const char *from, const char *to) {
    (void)from, (void)to;
    return refused(ENOENT);
}

/* It is always the first second of 1970: there are programs that end where this fails. */
int _gettimeofday(struct timeval *now, void *zone) {
    (void)zone;
    *now = (struct timeval){0};
    return 0;
}

clock_t _times(struct tms *times) {
    *times = (struct tms){0};
    return (clock_t)refused(ENOSYS);
}
