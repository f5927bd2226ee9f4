/*
 * Files below folders that the host lists, a clock, random bytes, and the words that a program is started with: a ready-made host
 * for programs that `sfi-cc --library files` linked, and for what else calls the gate `sfi_system`. docs/GATES.md says what its
 * operations are. It is C11 over POSIX.1-2008, and the host's own code: nothing here is proved.
 *
 *     struct sfi_run_folder folders[] = {{"work", "/", false}, {"/usr/share/dict", "/dict", true}};
 *     struct sfi_run_files files;
 *     if (sfi_run_import(image, length, 0, "sfi_system", 10, &gate) == SFI_RUN_NAMES_FOUND &&
 *         sfi_run_files_open(&files, gate, folders, 2) == 0) {
 *         .. sfi_run_serve(&world, 0, steps, sfi_run_files_serve, &files, &event) ..
 *         sfi_run_files_close(&files);
 *     }
 *
 * A path leads nowhere but into these folders: each folder on its way is opened by itself, below the one before it, and neither
 * `..` nor a link is followed; so no rename beside it makes it lead out. A folder that is listed as read-only is so by each path that
 * leads through it, from another listed folder, too; no folder that is listed, or above one, is renamed, replaced or removed. What is
 * refused gets an error's number.
 */
#ifndef SFI_RUN_FILES_H
#define SFI_RUN_FILES_H

#include <errno.h>
#include <fcntl.h>
#include <stdio.h>
#include <string.h>
#include <sys/stat.h>
#include <time.h>
#include <unistd.h>

#include "sfi_run_serve.h"

enum {
    SFI_RUN_FOLDERS_MOST = 16,
    SFI_RUN_STREAMS_MOST = 64,
    SFI_RUN_FILE_NUMBERS = 4096, /* files whose status a sandbox may ask for */
    SFI_RUN_PATH_MOST = 1024,
    SFI_RUN_CALL_MOST = 65536, /* bytes that a call reads or writes */
    SFI_RUN_FIRST_STREAM = 3
};
#define SFI_RUN_FILE_MOST 0x7fffffffu /* bytes of a file that is made longer, and the last place in a file */

/* The flags of an open, and the operations, from the first one's number on: tools/suygapid/library/files_glue/system_calls.h. */
enum { SFI_RUN_READS = 1, SFI_RUN_WRITES = 2, SFI_RUN_CREATES = 4, SFI_RUN_IS_NEW = 8, SFI_RUN_EMPTIES = 16, SFI_RUN_APPENDS = 32 };
#define SFI_RUN_FIRST_OPERATION 0xffff0000u

/* A folder of the host, the absolute path by which a sandbox knows it, and whether nothing in it may change. */
struct sfi_run_folder {
    const char *path, *name;
    bool is_read_only;
};

struct sfi_run_file_id {
    dev_t device;
    ino_t number;
};

/* What one sandbox has of a host. sfi_run_files_open fills it; between that and the first call a host may set the fields of the
   first part otherwise. */
struct sfi_run_files {
    const uint8_t *words; /* two counts, of words and of variables, as little-endian numbers of 32 bits, and their texts, each with its 0 */
    size_t words_size;
    uint64_t growth_most; /* bytes that files may have, in all, beyond what was there at first: 1 GiB */
    uint32_t entries_most; /* files and folders that may be made, less those that are removed: 10,000 */
    int standard[3];      /* the descriptors of input, output and error */

    uint32_t gate;
    uint64_t growth;
    uint32_t entries, folder_count, number_count;
    struct {
        char name[SFI_RUN_PATH_MOST + 1];
        int at;
        bool is_read_only;
        struct sfi_run_file_id id;
    } folders[SFI_RUN_FOLDERS_MOST];
    struct {
        int descriptor;
        struct sfi_run_file_id id;
    } streams[SFI_RUN_STREAMS_MOST];
    struct sfi_run_file_id numbers[SFI_RUN_FILE_NUMBERS];
    uint8_t room[SFI_RUN_CALL_MOST];
};

/* Where a path leads: the folder's descriptor, and the last part of the path in it, which is empty where that is a listed folder. */
struct sfi_run_place {
    int at;
    bool is_read_only;
    char name[SFI_RUN_PATH_MOST + 1];
};

/* A call that is served. */
struct sfi_run_request {
    struct sfi_run_files *files;
    struct sfi_run_world *world;
    uint32_t sandbox;
    const struct sfi_run_event *call;
};

/* The answer of an error: its number in newlib's errno.h, below 0. */
static inline int32_t sfi_run_refused(int number) {
    static const struct {
        int here, there;
    } numbers[] = {{EPERM, 1}, {ENOENT, 2}, {EBADF, 9}, {ENOMEM, 12}, {EACCES, 13}, {EFAULT, 14}, {EBUSY, 16}, {EEXIST, 17}, {EXDEV, 18},
                   {ENOTDIR, 20}, {EISDIR, 21}, {EINVAL, 22}, {ENFILE, 23}, {EMFILE, 24}, {EFBIG, 27}, {ENOSPC, 28}, {ESPIPE, 29},
                   {EROFS, 30}, {EMLINK, 31}, {EPIPE, 32}, {ENOSYS, 88}, {ENOTEMPTY, 90}, {ENAMETOOLONG, 91}, {EDQUOT, 132},
                   {EOVERFLOW, 139}};
    for (size_t index = 0; index < sizeof numbers / sizeof *numbers; index++)
        if (numbers[index].here == number)
            return -numbers[index].there;
    return -5; /* EIO */
}

static inline int32_t sfi_run_answered(int answer) {
    return answer < 0 ? sfi_run_refused(errno) : answer;
}

/* ---- paths */

static inline struct sfi_run_file_id sfi_run_id(const struct stat *status) {
    const struct sfi_run_file_id id = {status->st_dev, status->st_ino};
    return id;
}

static inline bool sfi_run_same_file(struct sfi_run_file_id first, struct sfi_run_file_id second) {
    return first.device == second.device && first.number == second.number;
}

/* Writes a path as its parts with a slash between each two. Returns whether there is no `..`. `to` has room for it. */
static inline bool sfi_run_plain_path(const char *path, char *to) {
    char *end = to;
    *to = 0;
    while (*path) {
        const size_t size = strcspn(path, "/");
        if (size == 2 && memcmp(path, "..", 2) == 0)
            return false;
        if (size > 0 && !(size == 1 && *path == '.')) {
            if (end != to)
                *end++ = '/';
            memcpy(end, path, size);
            end += size;
            *end = 0;
        }
        path += size + (path[size] == '/');
    }
    return true;
}

/* What of a plain path lies below a folder, or NULL. */
static inline const char *sfi_run_below(const char *path, const char *folder) {
    const size_t size = strlen(folder);
    if (size == 0)
        return path;
    if (strncmp(path, folder, size) != 0 || (path[size] != '/' && path[size] != 0))
        return NULL;
    return path + size + (path[size] == '/');
}

static inline bool sfi_run_is_link(int at, const char *name) {
    struct stat status;
    return fstatat(at, name, &status, AT_SYMLINK_NOFOLLOW) == 0 && S_ISLNK(status.st_mode);
}

/* Whether an open folder is one that is listed as read-only. */
static inline bool sfi_run_is_read_only(const struct sfi_run_files *files, int at) {
    struct stat status;
    if (fstat(at, &status) < 0)
        return true;
    for (uint32_t index = 0; index < files->folder_count; index++)
        if (files->folders[index].is_read_only && sfi_run_same_file(files->folders[index].id, sfi_run_id(&status)))
            return true;
    return false;
}

/* Whether an open folder is that one, or lies below it, or that can't be told. */
static inline bool sfi_run_may_lie_below(int at, struct sfi_run_file_id id) {
    char path[3 * SFI_RUN_PATH_MOST] = ".";
    struct sfi_run_file_id below = id;
    struct stat status;
    for (size_t end = 1; end + 4 <= sizeof path; end += 3) {
        if (fstatat(at, path, &status, 0) < 0 || sfi_run_same_file(sfi_run_id(&status), id))
            return true;
        if (sfi_run_same_file(sfi_run_id(&status), below)) /* that is the root */
            return false;
        below = sfi_run_id(&status);
        memcpy(path + end, "/..", 4);
    }
    return true;
}

/* Follows a path below a folder up to its last part. Takes the descriptor. Returns 0, and then place->at is open, or an error. */
static inline int32_t sfi_run_walk(const struct sfi_run_files *files, int at, const char *path, struct sfi_run_place *place) {
    size_t size;
    while (at >= 0 && path[size = strcspn(path, "/")] == '/') {
        memcpy(place->name, path, size);
        place->name[size] = 0;
        const int below = openat(at, place->name, O_RDONLY | O_DIRECTORY | O_NOFOLLOW | O_CLOEXEC);
        const int why = below >= 0 ? 0 : sfi_run_is_link(at, place->name) ? EACCES : errno;
        close(at);
        at = below;
        if (at < 0)
            return sfi_run_refused(why);
        place->is_read_only = place->is_read_only || sfi_run_is_read_only(files, at);
        path += size + 1;
    }
    if (at < 0)
        return sfi_run_refused(errno);
    strcpy(place->name, path);
    place->at = at;
    return 0;
}

/* Where the path leads that a sandbox passed. Returns 0, and then place->at is open, or an error. */
static inline int32_t sfi_run_find(const struct sfi_run_request *it, uint32_t at, uint32_t size, struct sfi_run_place *place) {
    char path[SFI_RUN_PATH_MOST + 1], plain[SFI_RUN_PATH_MOST + 1];
    const char *below = NULL;
    uint32_t found = 0;
    if (size > SFI_RUN_PATH_MOST)
        return sfi_run_refused(ENAMETOOLONG);
    if (!sfi_run_read(it->world, it->sandbox, at, size, (uint8_t *)path, SFI_RUN_PATH_MOST))
        return sfi_run_refused(EFAULT);
    path[size] = 0;
    if (size == 0 || strlen(path) != size)
        return sfi_run_refused(size == 0 ? ENOENT : EINVAL);
    if (!sfi_run_plain_path(path, plain))
        return sfi_run_refused(EACCES);
    for (uint32_t index = 0; index < it->files->folder_count; index++) {
        const char *in_this = sfi_run_below(plain, it->files->folders[index].name);
        if (in_this && (below == NULL || strlen(in_this) < strlen(below))) {
            below = in_this;
            found = index;
        }
    }
    if (below == NULL)
        return sfi_run_refused(EACCES);
    place->is_read_only = it->files->folders[found].is_read_only;
    return sfi_run_walk(it->files, fcntl(it->files->folders[found].at, F_DUPFD_CLOEXEC, 0), below, place);
}

/* The same of what is to be changed. */
static inline int32_t sfi_run_find_to_change(const struct sfi_run_request *it, uint32_t at, uint32_t size, struct sfi_run_place *place) {
    const int32_t why = sfi_run_find(it, at, size, place);
    if (why == 0 && !place->is_read_only && place->name[0])
        return 0;
    if (why == 0)
        close(place->at);
    return why ? why : sfi_run_refused(place->is_read_only ? EROFS : EBUSY);
}

static inline int sfi_run_look(const struct sfi_run_place *place, struct stat *status) {
    return place->name[0] ? fstatat(place->at, place->name, status, AT_SYMLINK_NOFOLLOW) : fstat(place->at, status);
}

/* Whether a place has a listed folder, or one above it. */
static inline bool sfi_run_is_busy(const struct sfi_run_files *files, const struct sfi_run_place *place) {
    struct stat status;
    if (sfi_run_look(place, &status) < 0 || !S_ISDIR(status.st_mode))
        return false;
    for (uint32_t index = 0; index < files->folder_count; index++)
        if (sfi_run_may_lie_below(files->folders[index].at, sfi_run_id(&status)))
            return true;
    return false;
}

/* ---- limits */

/* Takes what a file lacks to be that long: 0, or an error. */
static inline int32_t sfi_run_resize(struct sfi_run_files *files, int descriptor, uint64_t size) {
    struct stat status;
    if (size > SFI_RUN_FILE_MOST)
        return sfi_run_refused(EFBIG);
    if (fstat(descriptor, &status) < 0)
        return sfi_run_refused(errno);
    const uint64_t more = size > (uint64_t)status.st_size ? size - (uint64_t)status.st_size : 0;
    if (more > files->growth_most - files->growth)
        return sfi_run_refused(ENOSPC);
    files->growth += more;
    return 0;
}

/* Gives back what a file had on the disk beyond that size. */
static inline void sfi_run_shrink(struct sfi_run_files *files, const struct stat *status, uint64_t size) {
    const uint64_t on_disk = (uint64_t)status->st_blocks * 512, length = (uint64_t)status->st_size;
    const uint64_t had = on_disk < length ? on_disk : length, freed = had > size ? had - size : 0;
    files->growth -= freed < files->growth ? freed : files->growth;
}

static inline bool sfi_run_may_make(const struct sfi_run_files *files) {
    return files->entries < files->entries_most;
}

/* The number of a file, from 1 on, or 0 where there are too many: a sandbox doesn't learn the host's own. */
static inline uint32_t sfi_run_number(struct sfi_run_files *files, struct sfi_run_file_id id) {
    for (uint32_t index = 0; index < files->number_count; index++)
        if (sfi_run_same_file(files->numbers[index], id))
            return index + 1;
    if (files->number_count == SFI_RUN_FILE_NUMBERS)
        return 0;
    files->numbers[files->number_count++] = id;
    return files->number_count;
}

/* ---- streams */

/* The descriptor of a sandbox's stream, or -1. */
static inline int sfi_run_stream(const struct sfi_run_files *files, uint32_t stream) {
    const uint32_t index = stream - SFI_RUN_FIRST_STREAM;
    return index < SFI_RUN_STREAMS_MOST ? files->streams[index].descriptor : -1;
}

static inline bool sfi_run_is_to_write(int descriptor) {
    return (fcntl(descriptor, F_GETFL) & O_ACCMODE) != O_RDONLY;
}

/* Opens what a place names, if that is a file, or may be made: a descriptor, or an error. */
static inline int32_t sfi_run_open_file(struct sfi_run_files *files, const struct sfi_run_place *place, uint32_t flags, uint32_t mode) {
    const uint32_t both = SFI_RUN_READS | SFI_RUN_WRITES;
    const int access = (flags & both) == SFI_RUN_READS ? O_RDONLY : (flags & both) == SFI_RUN_WRITES ? O_WRONLY : O_RDWR;
    const int wanted = access | O_NOFOLLOW | O_CLOEXEC | O_NONBLOCK | O_NOCTTY | (flags & SFI_RUN_APPENDS ? O_APPEND : 0);
    struct stat status;
    const bool is_there = fstatat(place->at, place->name, &status, AT_SYMLINK_NOFOLLOW) == 0;
    if (!is_there && (errno != ENOENT || !(flags & SFI_RUN_CREATES)))
        return sfi_run_refused(errno);
    if (is_there && (flags & SFI_RUN_CREATES) && (flags & SFI_RUN_IS_NEW))
        return sfi_run_refused(EEXIST);
    if (is_there && !S_ISREG(status.st_mode))
        return sfi_run_refused(S_ISDIR(status.st_mode) ? EISDIR : EACCES);
    if (is_there)
        return sfi_run_answered(openat(place->at, place->name, wanted));
    if (!sfi_run_may_make(files))
        return sfi_run_refused(ENOSPC);
    const int made = openat(place->at, place->name, wanted | O_CREAT | O_EXCL, (mode_t)(mode & 0666));
    files->entries += made >= 0;
    return sfi_run_answered(made);
}

static inline int32_t sfi_run_serve_open(const struct sfi_run_request *it) {
    struct sfi_run_files *files = it->files;
    const uint32_t flags = it->call->a3, changes = SFI_RUN_WRITES | SFI_RUN_CREATES | SFI_RUN_EMPTIES | SFI_RUN_APPENDS;
    struct sfi_run_place place;
    struct stat status;
    uint32_t index = 0;
    if (!(flags & (SFI_RUN_READS | SFI_RUN_WRITES)) || ((flags & SFI_RUN_EMPTIES) && !(flags & SFI_RUN_WRITES)))
        return sfi_run_refused(EINVAL);
    while (index < SFI_RUN_STREAMS_MOST && files->streams[index].descriptor >= 0)
        index++;
    if (index == SFI_RUN_STREAMS_MOST)
        return sfi_run_refused(EMFILE);
    const int32_t why = sfi_run_find(it, it->call->a1, it->call->a2, &place);
    if (why)
        return why;
    const int32_t opened = place.is_read_only && (flags & changes) ? sfi_run_refused(EROFS)
                           : !place.name[0]                        ? sfi_run_refused(EISDIR)
                                                                   : sfi_run_open_file(files, &place, flags, it->call->a4);
    close(place.at);
    if (opened < 0)
        return opened;
    if (fstat(opened, &status) < 0 || !S_ISREG(status.st_mode) || ((flags & SFI_RUN_EMPTIES) && ftruncate(opened, 0) < 0)) {
        close(opened);
        return sfi_run_refused(EACCES);
    }
    if (flags & SFI_RUN_EMPTIES)
        sfi_run_shrink(files, &status, 0);
    files->streams[index].descriptor = opened;
    files->streams[index].id = sfi_run_id(&status);
    return (int32_t)(SFI_RUN_FIRST_STREAM + index);
}

static inline int32_t sfi_run_serve_close(const struct sfi_run_request *it) {
    const int descriptor = sfi_run_stream(it->files, it->call->a1);
    if (descriptor < 0)
        return sfi_run_refused(EBADF);
    close(descriptor);
    it->files->streams[it->call->a1 - SFI_RUN_FIRST_STREAM].descriptor = -1;
    return 0;
}

/* 0 where these bytes are the sandbox's own and not too many, or an error. */
static inline int32_t sfi_run_check_room(const struct sfi_run_request *it, uint32_t at, uint32_t length) {
    struct sfi_run_region data;
    if (length > SFI_RUN_CALL_MOST)
        return sfi_run_refused(EINVAL);
    if (!sfi_run_data(it->world, it->sandbox, &data) ||
        (length > 0 && (at < data.base || (uint64_t)at + length > (uint64_t)data.base + data.size)))
        return sfi_run_refused(EFAULT);
    return 0;
}

static inline int32_t sfi_run_serve_read(const struct sfi_run_request *it) {
    const int descriptor = sfi_run_stream(it->files, it->call->a1);
    const int32_t why = sfi_run_check_room(it, it->call->a2, it->call->a3);
    if (descriptor < 0 || why)
        return descriptor < 0 ? sfi_run_refused(EBADF) : why;
    const ssize_t count = read(descriptor, it->files->room, it->call->a3);
    if (count > 0)
        sfi_run_write(it->world, it->sandbox, it->call->a2, it->files->room, (size_t)count);
    return sfi_run_answered((int)count);
}

static inline int32_t sfi_run_write_all(int descriptor, const uint8_t *bytes, size_t length) {
    for (size_t done = 0; done < length;) {
        const ssize_t count = write(descriptor, bytes + done, length - done);
        if (count < 0 && errno != EINTR)
            return sfi_run_refused(errno);
        done += count > 0 ? (size_t)count : 0;
    }
    return (int32_t)length;
}

static inline int32_t sfi_run_serve_write(const struct sfi_run_request *it) {
    const uint32_t length = it->call->a3;
    const int descriptor = sfi_run_stream(it->files, it->call->a1);
    const int32_t why = sfi_run_check_room(it, it->call->a2, length);
    struct stat status;
    if (why)
        return why;
    sfi_run_read(it->world, it->sandbox, it->call->a2, length, it->files->room, sizeof it->files->room);
    if (it->call->a1 == 2)
        return sfi_run_write_all(it->files->standard[2], it->files->room, length);
    if (descriptor < 0 || !sfi_run_is_to_write(descriptor) || fstat(descriptor, &status) < 0)
        return sfi_run_refused(EBADF);
    const off_t place = fcntl(descriptor, F_GETFL) & O_APPEND ? status.st_size : lseek(descriptor, 0, SEEK_CUR);
    const int32_t full = length > 0 ? sfi_run_resize(it->files, descriptor, (uint64_t)place + length) : 0;
    return full ? full : sfi_run_answered((int)write(descriptor, it->files->room, length));
}

static inline int32_t sfi_run_serve_seek(const struct sfi_run_request *it) {
    static const int whence[] = {SEEK_SET, SEEK_CUR, SEEK_END};
    const int descriptor = sfi_run_stream(it->files, it->call->a1);
    if (descriptor < 0)
        return sfi_run_refused(it->call->a1 < SFI_RUN_FIRST_STREAM ? ESPIPE : EBADF);
    if (it->call->a3 > 2)
        return sfi_run_refused(EINVAL);
    const off_t before = lseek(descriptor, 0, SEEK_CUR), after = lseek(descriptor, (int32_t)it->call->a2, whence[it->call->a3]);
    if (after > (off_t)SFI_RUN_FILE_MOST) {
        lseek(descriptor, before, SEEK_SET);
        return sfi_run_refused(EOVERFLOW);
    }
    return after < 0 ? sfi_run_refused(errno) : (int32_t)after;
}

/* ---- what is told, and changed */

static inline void sfi_run_put_number(uint8_t *to, uint64_t number, int bytes) {
    for (int index = 0; index < bytes; index++)
        to[index] = (uint8_t)(number >> 8 * index);
}

static inline int32_t sfi_run_tell_status(const struct sfi_run_request *it, uint32_t at, const struct stat *status) {
    uint8_t told[24];
    const uint32_t number = sfi_run_number(it->files, sfi_run_id(status));
    if (number == 0 || status->st_size > (off_t)SFI_RUN_FILE_MOST)
        return sfi_run_refused(EOVERFLOW);
    const uint64_t seconds = status->st_mtim.tv_sec > 0 ? (uint64_t)status->st_mtim.tv_sec : 0;
    sfi_run_put_number(told, S_ISREG(status->st_mode) ? 1 : S_ISDIR(status->st_mode) ? 2 : 0, 4);
    sfi_run_put_number(told + 4, number, 4);
    sfi_run_put_number(told + 8, status->st_nlink < 0xffff ? (uint64_t)status->st_nlink : 0xffff, 4);
    sfi_run_put_number(told + 12, (uint64_t)status->st_size, 4);
    sfi_run_put_number(told + 16, seconds * 1000000000 + (uint64_t)status->st_mtim.tv_nsec, 8);
    return sfi_run_write(it->world, it->sandbox, at, told, sizeof told) ? 0 : sfi_run_refused(EFAULT);
}

static inline int32_t sfi_run_serve_status(const struct sfi_run_request *it) {
    struct stat status;
    const int descriptor = sfi_run_stream(it->files, it->call->a1);
    if (descriptor < 0 || fstat(descriptor, &status) < 0)
        return sfi_run_refused(EBADF);
    return sfi_run_tell_status(it, it->call->a2, &status);
}

static inline int32_t sfi_run_serve_status_of(const struct sfi_run_request *it) {
    struct sfi_run_place place;
    struct stat status;
    int32_t why = sfi_run_find(it, it->call->a1, it->call->a2, &place);
    if (why)
        return why;
    why = sfi_run_look(&place, &status) < 0 ? sfi_run_refused(errno) : S_ISLNK(status.st_mode) ? sfi_run_refused(EACCES) : 0;
    close(place.at);
    return why ? why : sfi_run_tell_status(it, it->call->a3, &status);
}

static inline int32_t sfi_run_serve_truncate(const struct sfi_run_request *it) {
    struct stat before;
    const int descriptor = sfi_run_stream(it->files, it->call->a1);
    if (descriptor < 0 || fstat(descriptor, &before) < 0)
        return sfi_run_refused(EBADF);
    if (!sfi_run_is_to_write(descriptor))
        return sfi_run_refused(EINVAL);
    const int32_t full = sfi_run_resize(it->files, descriptor, it->call->a2);
    if (full || ftruncate(descriptor, (off_t)it->call->a2) < 0)
        return full ? full : sfi_run_refused(errno);
    sfi_run_shrink(it->files, &before, it->call->a2);
    return 0;
}

static inline int32_t sfi_run_serve_sync(const struct sfi_run_request *it) {
    const int descriptor = sfi_run_stream(it->files, it->call->a1);
    return descriptor < 0 ? sfi_run_refused(EBADF) : sfi_run_answered(fsync(descriptor));
}

static inline bool sfi_run_is_open(const struct sfi_run_files *files, struct sfi_run_file_id id) {
    for (uint32_t index = 0; index < SFI_RUN_STREAMS_MOST; index++)
        if (files->streams[index].descriptor >= 0 && sfi_run_same_file(files->streams[index].id, id))
            return true;
    return false;
}

/* Removes a file, or a folder by AT_REMOVEDIR. */
static inline int32_t sfi_run_serve_remove(const struct sfi_run_request *it, int how) {
    struct sfi_run_place place;
    struct stat status;
    int32_t why = sfi_run_find_to_change(it, it->call->a1, it->call->a2, &place);
    if (why)
        return why;
    why = how == AT_REMOVEDIR && sfi_run_is_busy(it->files, &place) ? sfi_run_refused(EBUSY)
          : sfi_run_look(&place, &status) < 0 || unlinkat(place.at, place.name, how) < 0 ? sfi_run_refused(errno)
                                                                                        : 0;
    close(place.at);
    if (why)
        return why;
    it->files->entries -= it->files->entries > 0;
    if (S_ISREG(status.st_mode) && status.st_nlink == 1 &&
        !sfi_run_is_open(it->files, sfi_run_id(&status)))
        sfi_run_shrink(it->files, &status, 0);
    return 0;
}

static inline int32_t sfi_run_serve_rename(const struct sfi_run_request *it) {
    struct sfi_run_place from, to;
    int32_t why = sfi_run_find_to_change(it, it->call->a1, it->call->a2, &from);
    if (why)
        return why;
    why = sfi_run_find_to_change(it, it->call->a3, it->call->a4, &to);
    if (why == 0) {
        why = sfi_run_is_busy(it->files, &from) || sfi_run_is_busy(it->files, &to)
                  ? sfi_run_refused(EBUSY)
                  : sfi_run_answered(renameat(from.at, from.name, to.at, to.name));
        close(to.at);
    }
    close(from.at);
    return why;
}

static inline int32_t sfi_run_serve_make_folder(const struct sfi_run_request *it) {
    struct sfi_run_place place;
    int32_t why = sfi_run_find(it, it->call->a1, it->call->a2, &place);
    if (why)
        return why;
    why = !place.name[0]                ? sfi_run_refused(EEXIST)
          : place.is_read_only          ? sfi_run_refused(EROFS)
          : !sfi_run_may_make(it->files) ? sfi_run_refused(ENOSPC)
                                        : sfi_run_answered(mkdirat(place.at, place.name, (mode_t)(it->call->a3 & 0777)));
    it->files->entries += why == 0;
    close(place.at);
    return why;
}

/* ---- words, time, random bytes */

static inline int32_t sfi_run_serve_words(const struct sfi_run_request *it) {
    const size_t size = it->files->words_size;
    if (size <= it->call->a2 && !sfi_run_write(it->world, it->sandbox, it->call->a1, it->files->words, size))
        return sfi_run_refused(EFAULT);
    return (int32_t)size;
}

static inline int32_t sfi_run_serve_clock(const struct sfi_run_request *it) {
    struct timespec now;
    uint8_t told[8];
    if (it->call->a1 > 1 || clock_gettime(it->call->a1 ? CLOCK_MONOTONIC : CLOCK_REALTIME, &now) < 0)
        return sfi_run_refused(EINVAL);
    sfi_run_put_number(told, (uint64_t)now.tv_sec * 1000000000 + (uint64_t)now.tv_nsec, sizeof told);
    return sfi_run_write(it->world, it->sandbox, it->call->a2, told, sizeof told) ? 0 : sfi_run_refused(EFAULT);
}

static inline int32_t sfi_run_serve_random(const struct sfi_run_request *it) {
    const int32_t why = sfi_run_check_room(it, it->call->a1, it->call->a2);
    if (why || it->call->a2 == 0)
        return why;
    const int source = open("/dev/urandom", O_RDONLY | O_CLOEXEC);
    const ssize_t count = source < 0 ? -1 : read(source, it->files->room, it->call->a2);
    if (source >= 0)
        close(source);
    if (count != (ssize_t)it->call->a2)
        return sfi_run_refused(EIO);
    sfi_run_write(it->world, it->sandbox, it->call->a1, it->files->room, it->call->a2);
    return 0;
}

/* ---- the host */

static inline int32_t sfi_run_serve_operation(const struct sfi_run_request *it) {
    switch (it->call->a0 - SFI_RUN_FIRST_OPERATION) {
    case 0: return sfi_run_serve_words(it);
    case 1: return sfi_run_serve_open(it);
    case 2: return sfi_run_serve_close(it);
    case 3: return sfi_run_serve_read(it);
    case 4: return sfi_run_serve_write(it);
    case 5: return sfi_run_serve_seek(it);
    case 6: return sfi_run_serve_status(it);
    case 7: return sfi_run_serve_status_of(it);
    case 8: return sfi_run_serve_truncate(it);
    case 9: return sfi_run_serve_sync(it);
    case 10: return sfi_run_serve_remove(it, 0);
    case 11: return sfi_run_serve_rename(it);
    case 12: return sfi_run_serve_make_folder(it);
    case 13: return sfi_run_serve_remove(it, AT_REMOVEDIR);
    case 14: return sfi_run_serve_clock(it);
    case 15: return sfi_run_serve_random(it);
    default: return sfi_run_refused(ENOSYS);
    }
}

/* Closes all streams and folders: what a sandbox calls later finds none. */
static inline void sfi_run_files_close(struct sfi_run_files *files) {
    for (uint32_t index = 0; index < SFI_RUN_STREAMS_MOST; index++) {
        if (files->streams[index].descriptor >= 0)
            close(files->streams[index].descriptor);
        files->streams[index].descriptor = -1;
    }
    for (uint32_t index = 0; index < files->folder_count; index++)
        close(files->folders[index].at);
    files->folder_count = 0;
}

/*
 * Opens the folders for the sandbox whose gate `sfi_system` lies at that address. Returns 0, or an error's number where there are more
 * than SFI_RUN_FOLDERS_MOST, a name isn't absolute, has `..` or is too long, two have one name, or a folder can't be opened; then
 * nothing is open.
 */
static inline int sfi_run_files_open(struct sfi_run_files *files, uint32_t gate, const struct sfi_run_folder *folders, uint32_t count) {
    static const uint8_t no_words[8];
    struct stat status;
    memset(files, 0, sizeof *files);
    files->words = no_words;
    files->words_size = sizeof no_words;
    files->growth_most = 1u << 30;
    files->entries_most = 10000;
    files->gate = gate;
    for (int index = 0; index < 3; index++)
        files->standard[index] = index;
    for (uint32_t index = 0; index < SFI_RUN_STREAMS_MOST; index++)
        files->streams[index].descriptor = -1;
    int why = count > SFI_RUN_FOLDERS_MOST ? E2BIG : 0;
    for (uint32_t index = 0; why == 0 && index < count; index++) {
        const char *name = folders[index].name;
        char *plain = files->folders[index].name;
        if (name[0] != '/' || strlen(name) > SFI_RUN_PATH_MOST || !sfi_run_plain_path(name, plain))
            why = EINVAL;
        for (uint32_t other = 0; other < index; other++)
            why = strcmp(files->folders[other].name, plain) == 0 ? EINVAL : why;
        const int at = why ? -1 : open(folders[index].path, O_RDONLY | O_DIRECTORY | O_CLOEXEC);
        if (why == 0 && (at < 0 || fstat(at, &status) < 0))
            why = errno;
        if (why && at >= 0)
            close(at);
        if (why)
            break;
        files->folders[index].at = at;
        files->folders[index].id = sfi_run_id(&status);
        files->folders[index].is_read_only = folders[index].is_read_only;
        files->folder_count = index + 1;
    }
    if (why)
        sfi_run_files_close(files);
    return why;
}

/*
 * A handler of sfi_run_serve, whose context is a struct sfi_run_files: serves the gate, and exit, put and get of the console over the
 * standard streams. A yield goes on; post and take find no other sandbox, and no word.
 */
static inline bool sfi_run_files_serve(struct sfi_run_world *world, uint32_t sandbox, const struct sfi_run_event *call, void *context) {
    struct sfi_run_files *files = (struct sfi_run_files *)context;
    const struct sfi_run_request it = {files, world, sandbox, call};
    int32_t answer = -1;
    if (call->pc == files->gate)
        return sfi_run_reply(world, sandbox, (uint32_t)sfi_run_serve_operation(&it), call->a1);
    switch (call->number) {
    case 0:
        return sfi_run_exit(world, sandbox, call->a0);
    case 1:
        if (sfi_run_check_room(&it, call->a0, call->a1) == 0) {
            sfi_run_read(world, sandbox, call->a0, call->a1, files->room, sizeof files->room);
            answer = sfi_run_write_all(files->standard[1], files->room, call->a1);
        }
        return sfi_run_reply(world, sandbox, answer < 0 ? UINT32_MAX : (uint32_t)answer, call->a1);
    case 2:
        if (sfi_run_check_room(&it, call->a0, call->a1) == 0) {
            answer = (int32_t)read(files->standard[0], files->room, call->a1);
            if (answer > 0)
                sfi_run_write(world, sandbox, call->a0, files->room, (size_t)answer);
        }
        return sfi_run_reply(world, sandbox, answer < 0 ? UINT32_MAX : (uint32_t)answer, call->a1);
    case 3:
        return sfi_run_reply(world, sandbox, call->a0, call->a1);
    case 4:
        return sfi_run_reply(world, sandbox, UINT32_MAX, call->a1);
    default:
        return sfi_run_reply(world, sandbox, 0, 0);
    }
}

#endif
