/* What newlib asks of an operating system whose host has files, a clock and random bytes. Where the host doesn't know the gate, a
   program has the console's streams alone, as without this library. */
#include <errno.h>
#include <fcntl.h>
#include <stdarg.h>
#include <stdint.h>
#include <stdlib.h>
#include <string.h>
#include <sys/stat.h>
#include <sys/time.h>
#include <sys/times.h>
#include <unistd.h>
#undef errno
extern int errno;

#include "system_calls.h"

#define BLOCK 4096
#define MOST 65536 /* bytes that a call takes */
#define SECOND 1000000000

extern int main(int, char **, char **);
extern char **environ;
static int is_served; /* whether the host knows the gate */

/* Newlib's functions take the number from the one place, a program from the other. */
static int refused(int why) {
    *__errno() = errno = why;
    return -1;
}

static int answered(int answer) {
    return answer < 0 ? refused(-answer) : answer;
}

#define CALL(...) (is_served ? answered(sfi_system(__VA_ARGS__)) : refused(ENOSYS))
#define OF_PATH(operation, path, ...) CALL(operation, path, strlen(path), ##__VA_ARGS__)

/* The texts that stand one behind another, as a list that ends in NULL. */
static char **listed(char **list, unsigned count, char **text) {
    for (; count; count--) {
        *list++ = *text;
        *text += strlen(*text) + 1;
    }
    *list++ = NULL;
    return list;
}

/* The host gives two numbers, of words and of variables, and then their texts. */
void _start(int argc, char **argv) {
    int size = sfi_system(SYSTEM_WORDS, NULL, 0);
    if (size >= 0) {
        unsigned *counts = malloc(size);
        is_served = 1;
        char **lists = counts && sfi_system(SYSTEM_WORDS, counts, size) == size ? malloc((counts[0] + counts[1] + 2) * sizeof *lists) : NULL;
        if (lists == NULL) {
            static const char told[] = "no memory for the program's words\n";
            _exit((write(STDERR_FILENO, told, sizeof told - 1), 126));
        }
        char *text = (char *)(counts + 2);
        argc = counts[0], argv = lists;
        environ = listed(lists, counts[0], &text);
        listed(environ, counts[1], &text);
    }
    exit(main(argc, argv, environ));
}

int _write(int stream, const void *bytes, size_t count) {
    if (count > MOST)
        count = MOST;
    if (is_served && stream != STDOUT_FILENO)
        return CALL(SYSTEM_WRITE, stream, bytes, count);
    if (stream != STDOUT_FILENO && stream != STDERR_FILENO)
        return refused(EBADF);
    int done = count ? put(bytes, count) : 0;
    return done < 0 ? refused(EIO) : done;
}

int _read(int stream, void *bytes, size_t count) {
    if (count > MOST)
        count = MOST;
    if (stream != STDIN_FILENO)
        return is_served ? CALL(SYSTEM_READ, stream, bytes, count) : refused(EBADF);
    int done = get(bytes, count);
    return done < 0 ? refused(EIO) : done;
}

int _open(const char *path, int flags, ...) {
    static const struct { int here, there; } pairs[] = {{O_CREAT, SYSTEM_CREATES}, {O_EXCL, SYSTEM_IS_NEW}, {O_TRUNC, SYSTEM_EMPTIES},
                                                        {O_APPEND, SYSTEM_APPENDS}};
    int there = (flags & O_ACCMODE) == O_RDWR ? SYSTEM_READS | SYSTEM_WRITES : (flags & O_ACCMODE) == O_WRONLY ? SYSTEM_WRITES : SYSTEM_READS;
    int mode = 0;
    for (unsigned index = 0; index < sizeof pairs / sizeof *pairs; index++)
        there |= flags & pairs[index].here ? pairs[index].there : 0;
    if (flags & O_CREAT) {
        va_list more;
        va_start(more, flags);
        mode = va_arg(more, int);
        va_end(more);
    }
    return is_served ? OF_PATH(SYSTEM_OPEN, path, there, mode) : refused(ENOENT);
}

int _close(int stream) {
    if (stream >= STDIN_FILENO && stream <= STDERR_FILENO)
        return 0;
    return is_served ? CALL(SYSTEM_CLOSE, stream) : refused(EBADF);
}

off_t _lseek(int stream, off_t offset, int whence) {
    return is_served ? CALL(SYSTEM_SEEK, stream, offset, whence) : refused(ESPIPE);
}

static int told(int answer, const struct system_status *from, struct stat *status) {
    static const mode_t modes[] = {S_IFCHR | 0600, S_IFREG | 0600, S_IFDIR | 0700};
    if (answer < 0)
        return answer;
    struct timespec modified = {from->modified / SECOND, from->modified % SECOND};
    *status = (struct stat){.st_mode = modes[from->kind % 3], .st_ino = from->number, .st_nlink = from->links, .st_size = from->size,
                            .st_blksize = BLOCK, .st_blocks = (from->size + 511) / 512,
                            .st_atim = modified, .st_mtim = modified, .st_ctim = modified};
    return 0;
}

int _fstat(int stream, struct stat *status) {
    struct system_status found = {0};
    if (stream >= STDIN_FILENO && stream <= STDERR_FILENO)
        return told(0, &found, status);
    return told(is_served ? CALL(SYSTEM_STATUS, stream, &found) : refused(EBADF), &found, status);
}

int _stat(const char *path, struct stat *status) {
    struct system_status found;
    return told(is_served ? OF_PATH(SYSTEM_STATUS_OF, path, &found) : refused(ENOENT), &found, status);
}

/* No path leads over a link. */
int lstat(const char *restrict path, struct stat *restrict status) {
    return _stat(path, status);
}

int _isatty(int stream) {
    (void)stream;
    refused(ENOTTY);
    return 0;
}

int access(const char *path, int mode) {
    struct stat status;
    (void)mode;
    return _stat(path, &status);
}

int _unlink(const char *path) {
    return is_served ? OF_PATH(SYSTEM_UNLINK, path) : refused(ENOENT);
}

int _link(const char *from, const char *to) {
    (void)from, (void)to;
    return refused(is_served ? EPERM : ENOENT);
}

/* In the place of newlib's, which links and unlinks. */
int _rename_r(struct _reent *own, const char *from, const char *to) {
    (void)own;
    return is_served ? OF_PATH(SYSTEM_RENAME, from, to, strlen(to)) : refused(ENOENT);
}

int mkdir(const char *path, mode_t mode) {
    return OF_PATH(SYSTEM_MAKE_FOLDER, path, mode);
}

int rmdir(const char *path) {
    return OF_PATH(SYSTEM_REMOVE_FOLDER, path);
}

int ftruncate(int stream, off_t size) {
    return size < 0 ? refused(EINVAL) : CALL(SYSTEM_TRUNCATE, stream, size);
}

int fsync(int stream) {
    return CALL(SYSTEM_SYNC, stream);
}

/* What there is nothing of: links, owners and modes, and a way to wait. Programs that ask for these go on without. */
ssize_t readlink(const char *restrict path, char *restrict room, size_t size) {
    struct stat status;
    (void)room, (void)size;
    return _stat(path, &status) < 0 ? -1 : refused(EINVAL);
}

uid_t geteuid(void) {
    return 1;
}

int fchown(int stream, uid_t owner, gid_t group) {
    (void)stream, (void)owner, (void)group;
    return refused(EPERM);
}

int fchmod(int stream, mode_t mode) {
    (void)stream, (void)mode;
    return refused(EPERM);
}

int utimes(const char *path, const struct timeval times[2]) {
    (void)path, (void)times;
    return refused(EPERM);
}

unsigned sleep(unsigned seconds) {
    return seconds;
}

char *getcwd(char *room, size_t size) {
    if (size < 2)
        return refused(size ? ERANGE : EINVAL), NULL;
    return strcpy(room, "/");
}

int getentropy(void *bytes, size_t count) {
    return CALL(SYSTEM_RANDOM, bytes, count);
}

int clock_gettime(clockid_t which, struct timespec *now) {
    unsigned long long time = 0;
    if (CALL(SYSTEM_CLOCK, which == CLOCK_REALTIME ? SYSTEM_TIME : SYSTEM_MONOTONIC, &time) < 0)
        return -1;
    *now = (struct timespec){time / SECOND, time % SECOND};
    return 0;
}

/* Without a clock it is always the first second of 1970: there are programs that end where this fails. */
int _gettimeofday(struct timeval *now, void *zone) {
    unsigned long long time = 0;
    (void)zone;
    if (is_served)
        sfi_system(SYSTEM_CLOCK, SYSTEM_TIME, &time);
    *now = (struct timeval){time / SECOND, time % SECOND / 1000};
    return 0;
}

clock_t _times(struct tms *times) {
    unsigned long long time;
    *times = (struct tms){0};
    if (CALL(SYSTEM_CLOCK, SYSTEM_MONOTONIC, &time) < 0)
        return (clock_t)-1;
    return times->tms_utime = time / (SECOND / CLOCKS_PER_SEC);
}
