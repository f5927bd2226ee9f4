/* Runs a program that `sfi-cc --library files` linked, with a folder of the host as its root, and the words behind it.
 *
 *     files IMAGE FOLDER [WORD ..]     # IMAGE holds the image's own bytes
 */
#define _POSIX_C_SOURCE 200809L
#include "host.h"
#include "sfi_run_files.h"

static uint8_t words[65536];

/* Writes the words as sfi_run_files.h has them, and a variable: how many bytes they take. */
static size_t packed(int count, char **from) {
    static const char *const variable = "GREETING=hello";
    size_t size = 8;
    sfi_run_put_number(words, (uint64_t)count, 4);
    sfi_run_put_number(words + 4, 1, 4);
    for (int index = 0; index <= count; index++) {
        const char *text = index < count ? from[index] : variable;
        const size_t length = strlen(text) + 1;
        if (length > sizeof words - size)
            exit(7);
        memcpy(words + size, text, length);
        size += length;
    }
    return size;
}

int main(int count, char **given) {
    static struct sfi_run_files files;
    static uint8_t image[1 << 23];
    struct sfi_run_world world = SFI_RUN_NO_WORLD;
    struct sfi_run_event event;
    uint32_t gate = 0;
    if (count < 3)
        return 3;
    load_file(given[1], &world);
    FILE *file = fopen(given[1], "rb");
    const size_t length = file ? fread(image, 1, sizeof image, file) : 0;
    if (file)
        fclose(file);
    sfi_run_import(image, length, 0, "sfi_system", 10, &gate); /* one that calls no such gate has none */
    const struct sfi_run_folder folder = {given[2], "/", false};
    const int why = sfi_run_files_open(&files, gate, &folder, 1);
    if (why) {
        fprintf(stderr, "%s: %s\n", given[2], strerror(why));
        return 5;
    }
    given[2] = given[1];
    files.words_size = packed(count - 2, given + 2);
    files.words = words;
    const uint32_t kind = sfi_run_serve(&world, 0, UINT64_MAX, sfi_run_files_serve, &files, &event);
    sfi_run_files_close(&files);
    sfi_run_free(&world);
    return kind == SFI_RUN_EXITED ? (int)(event.number & 255) : 126;
}
