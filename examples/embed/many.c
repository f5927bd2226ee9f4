/*
 * Checks many images side by side, in a pool of threads. Their names come on standard input, with a NUL after each:
 *
 *     find images -type f -print0 | many THREADS > verdicts
 *
 * It prints a record for each image, in the order of the names: a status, the verdict and the name with tabs between
 * them, and a NUL. The status is that of `sfi check --raw`: 0 accepted, 1 refused, 2 no image; and without a verdict 4
 * where there is no memory for the image, 5 where its file can't be read.
 *
 * It ends in 0 where every image is accepted, in 1 where one isn't; in 4 where there is no memory for the names, 5 where
 * they can't be read or the records not be written, 6 where THREADS is no number from 1 to 1024.
 */
#define _POSIX_C_SOURCE 200809L
#include "verdict.h"
#include <pthread.h>
#include <stdatomic.h>
#include <stdbool.h>

enum { NO_MEMORY = 4, NOT_READ = 5, WRONG_WORDS = 6, MOST_THREADS = 1024 };

struct image {
    char *name;
    uint32_t status; /* one of enum sfi_status, NO_MEMORY or NOT_READ */
    struct sfi_verdict verdict;
};

struct images {
    struct image *all;
    size_t count, room;
    atomic_size_t next; /* the first that no thread has taken */
};

/* The bytes of one file, in room that the next one uses again. */
struct contents {
    uint8_t *bytes;
    size_t length, room;
};

/* ---- one image */

static bool has_room(struct contents *contents) {
    if (contents->length < contents->room)
        return true;
    size_t more = contents->room ? 2 * contents->room : 1 << 17;
    uint8_t *bytes = realloc(contents->bytes, more);
    if (!bytes)
        return false;
    contents->bytes = bytes;
    contents->room = more;
    return true;
}

/* Reads a file to its end; 0, NO_MEMORY or NOT_READ. */
static uint32_t read_file(FILE *file, struct contents *contents) {
    contents->length = 0;
    do {
        if (!has_room(contents))
            return NO_MEMORY;
        contents->length += fread(contents->bytes + contents->length, 1, contents->room - contents->length, file);
    } while (!feof(file) && !ferror(file));
    return ferror(file) ? NOT_READ : 0;
}

/* The file is read once, and the bytes that were read are judged. */
static void check_image(struct image *image, struct contents *contents) {
    FILE *file = fopen(image->name, "rb");
    image->status = file ? read_file(file, contents) : NOT_READ;
    if (file)
        fclose(file);
    if (image->status == 0)
        image->status = sfi_c_check(contents->bytes, contents->length, &image->verdict);
}

/* ---- all images */

/* What each thread does: it takes the next image, as long as there is one. */
static void *check_images(void *argument) {
    struct images *images = argument;
    struct contents contents = {0};
    for (;;) {
        size_t taken = atomic_fetch_add(&images->next, 1);
        if (taken >= images->count)
            break;
        check_image(&images->all[taken], &contents);
    }
    free(contents.bytes);
    return NULL;
}

/* Where fewer threads can be started, these do the work; this one takes part in it. */
static void check_all(struct images *images, long threads) {
    pthread_t pool[MOST_THREADS];
    long started = 0;
    while (started < threads - 1 && pthread_create(&pool[started], NULL, check_images, images) == 0)
        started++;
    check_images(images);
    while (started > 0)
        pthread_join(pool[--started], NULL);
}

/* ---- names and records */

static bool add_name(struct images *images, char *name) {
    if (images->count == images->room) {
        size_t more = images->room ? 2 * images->room : 1024;
        struct image *all = realloc(images->all, more * sizeof *all);
        if (!all)
            return false;
        images->all = all;
        images->room = more;
    }
    images->all[images->count++] = (struct image){.name = name};
    return true;
}

/* Reads all names; 0, NO_MEMORY or NOT_READ. */
static int read_names(struct images *images) {
    for (;;) {
        char *name = NULL;
        size_t room = 0;
        if (getdelim(&name, &room, '\0', stdin) < 0) {
            free(name);
            return feof(stdin) ? 0 : NOT_READ;
        }
        if (!add_name(images, name)) {
            free(name);
            return NO_MEMORY;
        }
    }
}

static const char *const faults[] = {"", "Magic", "Count", "Short", "Code", "Data", "GuardRoom", "Start", "Gates", "Init",
    "Overlap", "Trailing"};

/* Prints the records; whether every image is accepted. */
static bool print_records(const struct images *images) {
    bool are_accepted = true;
    for (size_t k = 0; k < images->count; k++) {
        const struct image *image = &images->all[k];
        are_accepted = are_accepted && image->status == SFI_ACCEPTED;
        printf("%" PRIu32 "\t", image->status);
        if (image->status <= SFI_NO_IMAGE)
            print_verdict(&image->verdict);
        if (image->status == SFI_NO_IMAGE)
            printf(" %s", faults[image->verdict.layout_fault]);
        printf("\t%s%c", image->name, '\0');
    }
    return are_accepted;
}

int main(int count, char **words) {
    static struct images images;
    long threads = count == 2 ? number_of(words[1], 1, MOST_THREADS) : -1;
    if (threads < 0)
        return WRONG_WORDS;
    int failure = read_names(&images);
    if (failure)
        return failure;
    check_all(&images, threads);
    bool are_accepted = print_records(&images);
    if (fflush(stdout) != 0 || ferror(stdout))
        return NOT_READ;
    for (size_t k = 0; k < images.count; k++)
        free(images.all[k].name);
    free(images.all);
    return are_accepted ? 0 : 1;
}
