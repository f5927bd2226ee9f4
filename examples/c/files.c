/* Each call of `--library files` with an answer and with a refusal, in the folder where it is run. Each line is what a native
   program prints there: tools/test_files.py compares. */
#include <errno.h>
#include <fcntl.h>
#include <stdio.h>
#include <stdlib.h>
#include <string.h>
#include <sys/stat.h>
#include <sys/time.h>
#include <time.h>
#include <unistd.h>

static const char *name_of(int number) {
    static const struct { int number; const char *name; } names[] = {
        {EACCES, "EACCES"}, {EBADF, "EBADF"}, {EEXIST, "EEXIST"}, {EINVAL, "EINVAL"}, {EISDIR, "EISDIR"}, {ENOENT, "ENOENT"},
        {ENOTDIR, "ENOTDIR"}, {ENOTEMPTY, "ENOTEMPTY"}, {ESPIPE, "ESPIPE"}, {ENAMETOOLONG, "ENAMETOOLONG"}, {ERANGE, "ERANGE"}};
    for (unsigned index = 0; index < sizeof names / sizeof *names; index++)
        if (names[index].number == number)
            return names[index].name;
    return "another";
}

static long tell(const char *what, long answer) {
    printf("%s %ld %s\n", what, answer, answer < 0 ? name_of(errno) : "");
    return answer;
}

static void opening(void) {
    static char long_path[5000];
    memset(long_path, 'x', sizeof long_path - 1);
    int stream = tell("open a new file", open("new", O_RDWR | O_CREAT | O_EXCL, 0600)) >= 0 ? open("new", O_RDWR) : -1;
    tell("close", close(stream));
    tell("close twice", close(stream));
    tell("open it as new again", open("new", O_RDWR | O_CREAT | O_EXCL, 0600));
    tell("open what isn't there", open("none", O_RDONLY));
    tell("open in what isn't there", open("none/file", O_RDWR | O_CREAT, 0600));
    tell("open below a file", open("new/file", O_RDONLY));
    tell("open a folder to write", open(".", O_WRONLY));
    tell("open an empty path", open("", O_RDONLY));
    tell("open a long path", open(long_path, O_RDONLY));
}

static void reading(void) {
    char bytes[16] = "";
    int stream = open("data", O_RDWR | O_CREAT | O_TRUNC, 0600);
    tell("write", write(stream, "0123456789", 10));
    tell("write nothing", write(stream, "", 0));
    tell("write to no stream", write(77, "x", 1));
    tell("read at the end", read(stream, bytes, 4));
    tell("seek", lseek(stream, 2, SEEK_SET));
    tell("read", read(stream, bytes, 4));
    printf("%.4s\n", bytes);
    tell("seek on", lseek(stream, 1, SEEK_CUR));
    tell("seek from the end", lseek(stream, -2, SEEK_END));
    tell("read what is left", read(stream, bytes, sizeof bytes));
    printf("%.2s\n", bytes);
    tell("seek before the beginning", lseek(stream, -1, SEEK_SET));
    tell("seek by what isn't known", lseek(stream, 0, 9));
    tell("seek in no stream", lseek(77, 0, SEEK_SET));
    tell("read from no stream", read(77, bytes, 1));
    tell("make shorter", ftruncate(stream, 3));
    tell("make longer", ftruncate(stream, 5));
    tell("make shorter than nothing", ftruncate(stream, -1));
    tell("sync", fsync(stream));
    tell("sync of no stream", fsync(77));
    tell("close", close(stream));
    stream = open("data", O_WRONLY | O_APPEND);
    tell("append", write(stream, "end", 3));
    tell("read from what is written", read(stream, bytes, 1));
    close(stream);
    stream = open("data", O_RDONLY);
    tell("read all", read(stream, bytes, sizeof bytes));
    tell("as was written", memcmp(bytes, "012\0\0end", 8));
    tell("write to what is read", write(stream, "x", 1));
    tell("make longer what is read", ftruncate(stream, 100));
    close(stream);
}

static void telling(void) {
    struct stat status, other;
    int stream = open("data", O_RDONLY);
    tell("status of a stream", fstat(stream, &status));
    printf("%d %ld %d\n", S_ISREG(status.st_mode), (long)status.st_size, (int)status.st_nlink);
    tell("status of a path", stat("./data", &other));
    printf("%d %d\n", status.st_ino == other.st_ino, status.st_mtime == other.st_mtime);
    tell("status of another", stat("new", &other));
    printf("%d\n", status.st_ino == other.st_ino);
    tell("status of a folder", stat(".", &other));
    printf("%d\n", S_ISDIR(other.st_mode));
    tell("status of what isn't there", stat("none", &status));
    tell("status of no stream", fstat(77, &status));
    tell("access", access("data", F_OK));
    tell("access to what isn't there", access("none", F_OK));
    close(stream);
}

static void changing(void) {
    char room[4096];
    tell("make a folder", mkdir("folder", 0700));
    tell("make it again", mkdir("folder", 0700));
    tell("make one in what isn't there", mkdir("none/folder", 0700));
    tell("open a file in it", open("folder/file", O_WRONLY | O_CREAT, 0600) >= 0 ? 0 : -1);
    tell("remove what isn't empty", rmdir("folder"));
    tell("rename", rename("folder/file", "moved"));
    tell("rename what isn't there", rename("folder/file", "moved"));
    tell("rename a file to a folder", rename("moved", "folder"));
    tell("unlink", unlink("moved"));
    tell("unlink what isn't there", unlink("moved"));
    tell("remove a folder", rmdir("folder"));
    tell("remove what isn't there", rmdir("folder"));
    tell("remove a file as a folder", rmdir("data"));
    tell("where it is, with no room", getcwd(room, 1) ? 0 : -1);
    tell("where it is", getcwd(room, sizeof room) && room[0] == '/' ? 0 : -1);
}

static void others(void) {
    unsigned char first[32], second[32];
    struct timespec now, then;
    struct timeval time;
    tell("random bytes", getentropy(first, sizeof first) | getentropy(second, sizeof second));
    printf("%d\n", memcmp(first, second, sizeof first) != 0);
    tell("the clock", clock_gettime(CLOCK_MONOTONIC, &then) | clock_gettime(CLOCK_MONOTONIC, &now));
    printf("%d\n", now.tv_sec > then.tv_sec || (now.tv_sec == then.tv_sec && now.tv_nsec >= then.tv_nsec));
    tell("the time", gettimeofday(&time, NULL));
    tell("and by another clock", clock_gettime(CLOCK_REALTIME, &now));
    printf("%d %d\n", time.tv_sec > 1700000000, now.tv_sec - time.tv_sec <= 10);
}

int main(int count, char **words) {
    for (int index = 1; index < count; index++)
        printf("%d of %d: %s\n", index, count, words[index]);
    printf("%s\n", getenv("GREETING") ? getenv("GREETING") : "no greeting");
    opening();
    reading();
    telling();
    changing();
    others();
    return 0;
}
