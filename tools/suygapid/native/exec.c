/* Runs the one sandbox of an image by its native code, as `sfi exec` does by steps: with the console's services over the standard
   streams, and where folders, variables or words are given also with files (sfi_run_files.h).

       exec [--program SFI] WORD..
       exec --program SFI --told TOLD IMAGE BUDGET GATE [--dir HOST GUEST rw|ro].. [--env NAME=VALUE].. -- [WORD]..

   The first is the program SFI (../../../../sfi beside this one, if none is named), which does what isn't done here: of the words
   `exec IMAGE [--budget N]` an image is run here that SFI accepts and makes native code of. The second is sfi-exec's. TOLD is the
   descriptor to which it writes `loaded`, unless this can't be run so (sfi-exec then goes by steps, and says what is wrong), and
   how a run ended that didn't exit. BUDGET is a number of steps, GATE the address of the gate for files. Both end as `sfi exec`. */
#define _GNU_SOURCE
#include <ctype.h>
#include <errno.h>
#include <fcntl.h>
#include <inttypes.h>
#include <spawn.h>
#include <stdbool.h>
#include <stdio.h>
#include <stdlib.h>
#include <string.h>
#include <sys/mman.h>
#include <sys/stat.h>
#include <sys/wait.h>
#include <unistd.h>
#include "sfi_native_image.h"
#include "sfi_native_code.h"
#include "sfi_run_files.h"

enum { FAULT = 125, TRAPPED = 126, USED = 124 }; /* statuses, as of `sfi exec` */
enum { CONSOLE_EXIT, CONSOLE_PUT, CONSOLE_GET, CONSOLE_YIELD, CONSOLE_POST, CONSOLE_TAKE }; /* services: docs/GATES.md */
enum { MAILBOX = 16, STEPS_BETWEEN = 10000000, WORDS = 7, DIGITS_MOST = 19 };
enum { FILE_MOST = 1 << 27, AT_ONCE = 1 << 16 }; /* bytes: of a text that SFI reads, and of a read */

/* ---- what sfi_native_world.c asks of its includer */

static const uint8_t *image_bytes;
static size_t image_size;
static struct sfi_image loaded;
static struct sfi_code codes[SFI_SANDBOXES_MOST];

#include "sfi_native_world.c"

static int native_turn(struct native_sandbox *it, sfi_u32 *at) {
    return sfi_native_turn(&codes[it->text - loaded.sandboxes], &it->hart, at);
}

static const uint8_t *code_of(const struct native_sandbox *it) {
    return sfi_code_bytes(it->text);
}

static uint8_t format_of(const struct native_sandbox *it) {
    (void)it;
    return image_bytes[MAGIC_SIZE - 1];
}

/* ---- the services */

struct host {
    struct sfi_run_files files;
    uint32_t mail[MAILBOX], mail_first, mail_count;
    bool has_put, has_failed;
};

/* Ends the run, since a standard stream can't be read or written. */
static bool fail(struct host *it, const char *fault) {
    fprintf(stderr, "exec fault %s\n", fault);
    it->has_failed = true;
    return false;
}

static bool flush(struct host *it) {
    return fflush(stdout) == 0 || fail(it, "5 Write");
}

static bool reply_with(struct sfi_run_world *world, const struct sfi_run_event *call, uint32_t answer) {
    return sfi_run_reply(world, 0, answer, call->a1);
}

/* Where the bytes of a put or a get are, or NULL. */
static uint8_t *bytes_of(struct sfi_run_world *world, const struct sfi_run_event *call) {
    return call->a1 <= SFI_RUN_CALL_MOST ? data_of(world, 0, call->a0, call->a1) : NULL;
}

static bool put(struct host *it, struct sfi_run_world *world, const struct sfi_run_event *call) {
    const uint8_t *const bytes = bytes_of(world, call);
    it->has_put = true;
    if (bytes != NULL && fwrite(bytes, 1, call->a1, stdout) != call->a1)
        return fail(it, "5 Write");
    return reply_with(world, call, bytes == NULL ? UINT32_MAX : call->a1);
}

static bool get(struct host *it, struct sfi_run_world *world, const struct sfi_run_event *call) {
    uint8_t *const bytes = bytes_of(world, call);
    ssize_t count = 0;
    if (!flush(it))
        return false;
    if (bytes != NULL && call->a1 > 0)
        while ((count = read(STDIN_FILENO, bytes, call->a1)) < 0 && errno == EINTR)
            ;
    if (count < 0)
        return fail(it, "4 Read");
    return reply_with(world, call, bytes == NULL ? UINT32_MAX : (uint32_t)count);
}

/* A word for itself, since there is no other sandbox. */
static bool post(struct host *it, struct sfi_run_world *world, const struct sfi_run_event *call) {
    if (call->a0 != 0)
        return reply_with(world, call, UINT32_MAX);
    if (it->mail_count == MAILBOX)
        return reply_with(world, call, 1);
    it->mail[(it->mail_first + it->mail_count++) % MAILBOX] = call->a1;
    return reply_with(world, call, 0);
}

static bool take(struct host *it, struct sfi_run_world *world) {
    if (it->mail_count == 0)
        return sfi_run_reply(world, 0, 0, 0);
    const uint32_t word = it->mail[it->mail_first];
    it->mail_first = (it->mail_first + 1) % MAILBOX;
    it->mail_count--;
    return sfi_run_reply(world, 0, word, 1);
}

/* Serves a call. What was put is written before whatever may be seen elsewhere. */
static bool serve(struct sfi_run_world *world, uint32_t sandbox, const struct sfi_run_event *call, void *context) {
    struct host *const it = context;
    if (call->pc == it->files.gate)
        return flush(it) && sfi_run_files_serve(world, sandbox, call, &it->files);
    if (call->number == CONSOLE_PUT)
        return put(it, world, call);
    if (call->number == CONSOLE_GET)
        return get(it, world, call);
    if (!flush(it))
        return false;
    switch (call->number) {
    case CONSOLE_EXIT: return sfi_run_exit(world, sandbox, call->a0);
    case CONSOLE_POST: return post(it, world, call);
    case CONSOLE_TAKE: return take(it, world);
    default: return reply_with(world, call, call->a0); /* CONSOLE_YIELD */
    }
}

/* Before each turn: writes what was put, if it has put nothing since the turn before. */
static bool goes_on(void *context) {
    struct host *const it = context;
    const bool has_put = it->has_put;
    it->has_put = false;
    return has_put || flush(it);
}

/* ---- words, folders, the end */

/* The words' texts behind two counts, of words and of variables. NULL where memory ran out. */
static uint8_t *packed(char *const words[], uint32_t count, char *const variables[], uint32_t variable_count, size_t *size) {
    const uint32_t counts[2] = { count, variable_count };
    *size = sizeof counts;
    for (uint32_t k = 0; k < count + variable_count; k++)
        *size += strlen(k < count ? words[k] : variables[k - count]) + 1;
    uint8_t *const all = malloc(*size), *at = all;
    if (all == NULL)
        return NULL;
    memcpy(at, counts, sizeof counts);
    at += sizeof counts;
    for (uint32_t k = 0; k < count + variable_count; k++)
        at = (uint8_t *)stpcpy((char *)at, k < count ? words[k] : variables[k - count]) + 1;
    return all;
}

/* ---- the image, in a file that has no name, of which the program SFI and this one read the same bytes */

/* The descriptor of a new file with what is read of the path, or -1. It is none of a standard stream's. */
static int copy_of(const char *path) {
    static uint8_t piece[AT_ONCE];
    const int from = open(path, O_RDONLY | O_CLOEXEC), made = memfd_create("image", MFD_CLOEXEC);
    const int to = made < 0 ? -1 : fcntl(made, F_DUPFD_CLOEXEC, STDERR_FILENO + 1);
    ssize_t length = from < 0 || to < 0 ? -1 : 1;
    for (off_t all = 0; length > 0 && all <= FILE_MOST; all += length)
        if ((length = read(from, piece, sizeof piece)) > 0 && write(to, piece, (size_t)length) != length)
            length = -1;
    if (from >= 0)
        close(from);
    if (made >= 0)
        close(made);
    if (length != 0 && to >= 0)
        close(to);
    return length == 0 ? to : -1;
}

/* What is in a file, which stays; NULL where that can't be had. */
static uint8_t *bytes_in(int file, size_t *length) {
    struct stat found;
    if (file < 0 || fstat(file, &found) || found.st_size == 0)
        return NULL;
    uint8_t *const bytes = mmap(NULL, *length = (size_t)found.st_size, PROT_READ | PROT_WRITE, MAP_PRIVATE, file, 0);
    return bytes == MAP_FAILED ? NULL : bytes;
}

/* What the program SFI answers to a command of which that file is the input; NULL where that isn't done. */
static uint8_t *answer(const char *program, char *command, int input, size_t *length) {
    extern char **environ;
    char *const words[] = { "sfi", command, NULL };
    const int output = copy_of("/dev/null");
    posix_spawn_file_actions_t streams;
    pid_t child;
    int status = -1;
    if (output < 0 || lseek(input, 0, SEEK_SET) || posix_spawn_file_actions_init(&streams))
        return NULL;
    posix_spawn_file_actions_adddup2(&streams, input, STDIN_FILENO);
    posix_spawn_file_actions_adddup2(&streams, output, STDOUT_FILENO);
    posix_spawn_file_actions_addopen(&streams, STDERR_FILENO, "/dev/null", O_WRONLY, 0);
    if (posix_spawn(&child, program, &streams, NULL, words, environ) == 0)
        while (waitpid(child, &status, 0) < 0 && errno == EINTR)
            ;
    posix_spawn_file_actions_destroy(&streams);
    uint8_t *const bytes = status == 0 ? bytes_in(output, length) : NULL;
    close(output);
    return bytes;
}

/* Makes an image's bytes of its text, where they lie, if it is one; what no image's text has SFI doesn't take. Their number. */
static size_t bytes_of_text(uint8_t *bytes, size_t length) {
    size_t count = 0;
    if (length >= 3 && memcmp(bytes, "SFI", 3) == 0)
        return length;
    for (size_t k = 0; k < length; k++)
        if (isxdigit(bytes[k])) {
            const int digit = bytes[k] <= '9' ? bytes[k] - '0' : (bytes[k] & 7) + 9;
            bytes[count / 2] = (uint8_t)(count % 2 ? bytes[count / 2] | digit : digit << 4);
            count++;
        }
    return count / 2;
}

/* Whether a file of native code says that it is of this image. */
static bool is_of_image(const uint8_t *file, size_t length) {
    return length >= SFI_FRONT && sfi_number(file + 8) == image_size && sfi_number(file + 12) == sfi_crc32(image_bytes, image_size);
}

/* Reads the image in a file, which nobody has judged so far. Whether native code can be made of it. */
static bool read_image(int image) {
    uint8_t *const bytes = bytes_in(image, &image_size);
    if (bytes == NULL)
        return false;
    image_size = bytes_of_text(bytes, image_size);
    image_bytes = bytes;
    return sfi_read_image(bytes, image_size, &loaded) && loaded.count == 1 && loaded.sandboxes[0].data_size % SFI_ZONE == 0;
}

/* Loads the image in a file and its code, which the program SFI makes. Whether it can be run. */
static bool load(const char *program, int image, struct sfi_run_world *world) {
    size_t length = 0;
    const uint8_t *const file = read_image(image) ? answer(program, "native", image, &length) : NULL;
    struct native_world *const made = new_world(1);
    if (file == NULL || !is_of_image(file, length) || !sfi_map_code(file, length, loaded.sandboxes, 1, codes) || made == NULL ||
        !make_sandboxes(loaded.sandboxes, 1, true, made->all))
        return false;
    world->held = 1;
    world->at = made;
    return true;
}

/* ---- the run and its end */

/* Writes the pc, and where SFI lists the image the instruction there. */
static void tell_place(const char *program, int image, uint32_t pc, FILE *told) {
    char address[] = "\n00000000 ";
    size_t length = 0;
    snprintf(address, sizeof address, "\n%08" PRIx32 " ", pc);
    const char *const list = program != NULL ? (const char *)answer(program, "dis", image, &length) : NULL;
    const char *const line = list != NULL ? memmem(list, length, address, strlen(address)) : NULL;
    if (line == NULL)
        fprintf(told, "sandbox=0 pc=%08" PRIx32 "\n", pc);
    else
        fprintf(told, "sandbox=0 pc=%.*s\n", (int)strcspn(line + 1, "\n"), line + 1);
}

/* Tells how it stands, by the lines of `sfi exec`, and answers the status. */
static int end_run(const char *program, int image, struct sfi_run_world *world, const struct sfi_run_event *event, FILE *told) {
    static const char *const causes[] = { "", "Fetch", "Illegal", "Break", "Load", "Store" };
    struct sfi_run_registers now;
    if (event->kind == SFI_RUN_EXITED)
        return (int)(event->number & 0xff);
    sfi_run_registers(world, 0, &now);
    fprintf(told, "sandbox=0 ");
    if (event->kind == SFI_RUN_TRAPPED)
        fprintf(told, "trap=%s at=%08" PRIx32, causes[event->number], event->a0);
    else
        fprintf(told, "ready");
    fprintf(told, " steps=%" PRIu64 "\n", sfi_run_steps(world, 0));
    tell_place(program, image, now.pc, told);
    for (int k = 1; k < 32; k++)
        fprintf(told, "x%d=%08" PRIx32 "%c", k, now.x[k], k % 8 == 7 ? '\n' : ' ');
    return event->kind == SFI_RUN_TRAPPED ? TRAPPED : USED;
}

/* Opens the folders for the sandbox's gate, and has the words ready. Whether it could. */
static bool open_files(struct host *host, char **words, int count, const char *gate) {
    static struct sfi_run_folder folders[SFI_RUN_FOLDERS_MOST + 1];
    const uint32_t address = (uint32_t)strtoul(gate, NULL, 10);
    uint32_t folder_count = 0;
    char **variables = words;
    int k = 0, variable_count = 0;
    for (; k < count && strcmp(words[k], "--") != 0;) {
        if (strcmp(words[k], "--dir") == 0 && folder_count <= SFI_RUN_FOLDERS_MOST) {
            folders[folder_count++] = (struct sfi_run_folder){ words[k + 1], words[k + 2], strcmp(words[k + 3], "ro") == 0 };
            k += 4;
        } else {
            variables[variable_count++] = words[k + 1];
            k += 2;
        }
    }
    const bool is_open = sfi_run_files_open(&host->files, address, folders, folder_count) == 0;
    host->files.words = packed(words + k + 1, (uint32_t)(count - k - 1), variables, (uint32_t)variable_count, &host->files.words_size);
    return is_open && host->files.words != NULL;
}

/* Runs the sandbox: the status. What is told has the instruction where a program is named that lists it. */
static int run(struct host *host, const char *program, int image, struct sfi_run_world *world, uint64_t budget, FILE *told) {
    const struct sfi_run_watch watch = { STEPS_BETWEEN, goes_on, host };
    struct sfi_run_event event;
    if (isatty(STDOUT_FILENO))
        setvbuf(stdout, NULL, _IONBF, 0);
    sfi_run_serve_watched(world, 0, budget, serve, host, &watch, &event);
    return host->has_failed || !flush(host) ? FAULT : end_run(program, image, world, &event, told);
}

/* ---- the words */

/* The number that digits spell; 0 where SFI is to say what is wrong. */
static uint64_t budget_of(const char *digits) {
    const size_t count = strspn(digits, "0123456789");
    return digits[count] == 0 && count <= DIGITS_MOST ? strtoull(digits, NULL, 10) : 0;
}

/* The one word behind `exec` that is no option, and the steps. NULL where the words are SFI's to read. */
static const char *image_of(char **words, uint64_t *budget) {
    const char *image = NULL;
    *budget = UINT64_MAX;
    for (char **at = words; *at != NULL; at++) {
        if (strcmp(*at, "--budget") == 0 && at[1] != NULL && *budget == UINT64_MAX)
            *budget = budget_of(*++at);
        else if (**at == '-' || image != NULL)
            return NULL;
        else
            image = *at;
    }
    return *budget == 0 ? NULL : image;
}

/* Goes on as the program SFI. Of what can't be read twice, as a pipe, it gets what has been read. */
static int go_on(const char *program, char **words, const char *image, int file) {
    static char copy[32];
    struct stat found;
    const bool is_gone = file >= 0 && (stat(image, &found) || !S_ISREG(found.st_mode));
    for (char **at = words; is_gone && *at != NULL; at++)
        if (*at == image && fcntl(file, F_SETFD, 0) == 0) {
            snprintf(copy, sizeof copy, "/proc/self/fd/%d", file);
            *at = copy;
        }
    words[-1] = (char *)program;
    execv(program, words - 1);
    fprintf(stderr, "sfi: %s can't be run: %s\n", program, strerror(errno));
    return FAULT;
}

/* Does what the program SFI does with these words. */
static int run_words(const char *program, char **words) {
    static struct host host = { .files = { .gate = UINT32_MAX } }; /* no address of code */
    struct sfi_run_world world = SFI_RUN_NO_WORLD;
    uint64_t budget;
    const char *const image = *words != NULL && strcmp(*words, "exec") == 0 ? image_of(words + 1, &budget) : NULL;
    const int file = image != NULL ? copy_of(image) : -1;
    if (file >= 0 && load(program, file, &world))
        return run(&host, program, file, &world, budget, stderr);
    return go_on(program, words, image, file);
}

/* The path of a file at the top of an installation, or of a checkout. */
static const char *beside(char path[AT_ONCE], const char *name) {
    static const char place[] = "/../../../../";
    const ssize_t length = readlink("/proc/self/exe", path, AT_ONCE - sizeof place - strlen(name));
    if (length > 0)
        sprintf(strrchr(path, '/'), "%s%s", place, name);
    return path;
}

/* Tells of what an installation was built, as ./sfi does. */
static void tell_made_of(void) {
    static char path[AT_ONCE];
    char commit[99], logic[99];
    FILE *const noted = fopen(beside(path, "built.json"), "r");
    if (noted != NULL && fscanf(noted, "{\"commit\": \"%98[^\"]\", \"logic\": \"%98[^\"]\"}", commit, logic) == 2)
        printf("commit=%s logic=%s\n", commit, logic);
    if (noted != NULL)
        fclose(noted);
}

/* Whether one of these words alone is asked for. */
static bool is_version(char **words) {
    return *words != NULL && words[1] == NULL && (strcmp(*words, "--version") == 0 || strcmp(*words, "-V") == 0);
}

/* Does what the program of an installation does, which itself knows only its version. */
static int run_installed(const char *program, char **words) {
    extern char **environ;
    pid_t child;
    int status = -1;
    if (!is_version(words))
        return run_words(program, words);
    if (posix_spawn(&child, program, NULL, NULL, words - 1, environ) == 0)
        while (waitpid(child, &status, 0) < 0 && errno == EINTR)
            ;
    if (!WIFEXITED(status))
        return FAULT;
    tell_made_of();
    return WEXITSTATUS(status);
}

/* Does what sfi-exec asks for: `words` begin with TOLD. */
static int run_told(const char *program, char **words, int count) {
    static struct host host;
    struct sfi_run_world world = SFI_RUN_NO_WORLD;
    FILE *const told = fdopen(atoi(words[0]), "w");
    const int image = copy_of(words[1]);
    if (told == NULL || image < 0 || !load(program, image, &world) || !open_files(&host, words + 4, count - 4, words[3]))
        return FAULT;
    fprintf(told, "loaded\n");
    return run(&host, NULL, image, &world, strtoull(words[2], NULL, 10), told);
}

int main(int count, char **words) {
    const bool is_named = count > 2 && strcmp(words[1], "--program") == 0;
    if (is_named && count > WORDS && strcmp(words[3], "--told") == 0)
        return run_told(words[2], words + 4, count - 4);
    static char path[AT_ONCE];
    return is_named ? run_words(words[2], words + 3) : run_installed(beside(path, "sfi"), words + 1);
}
