/* What the hosts here share that make use of native code in each way that might break it: worlds of the sandbox of hostile.s, whose
   states are compared with those that the translation's own functions make (sfi_turn). */
#ifndef HOSTILE_H
#define HOSTILE_H
#include <fcntl.h>
#include <signal.h>
#include <stdio.h>
#include <stdlib.h>
#include <sys/time.h>
#include <sys/wait.h>
#include <unistd.h>
#include "sfi_native_code.h"

enum { ROUNDS = 3000, WORLDS = 1000, THREADS = 8, ABOVE = 1, BELOW = -1, BY_EXIT = 0, PLAIN = 2 };
static const struct sfi_sandbox *const sandbox = &sfi_sandboxes[0];
static struct sfi_code code;
static uint8_t *file;
static size_t length;
static volatile sig_atomic_t failures;

static void check(int is_right, const char *what) {
    if (!is_right) {
        failures++;
        fprintf(stderr, "FAILED %s\n", what);
    }
}

/* A world of one sandbox, with how its last turn ended. */
struct world {
    struct sfi_hart hart;
    sfi_u32 at;
    int how;
};

/* At its start, for so many rounds and an ending, over the data that it has. */
static void restart(struct world *it, sfi_u32 rounds, int ending) {
    memset(it->hart.data, 0, sandbox->data_size);
    sfi_begin(sandbox, &it->hart, sandbox->start);
    it->hart.x[10] = rounds;
    it->hart.x[11] = (sfi_u32)ending;
    it->hart.x[12] = 2463534242u + rounds;
    it->how = SFI_NEXT;
}

static void take_turn(struct world *it, sfi_u32 steps) {
    it->hart.left = steps;
    it->how = sfi_native_turn(&code, &it->hart, &it->at);
}

static void run(struct world *it, sfi_u32 quantum) {
    while (it->how == SFI_NEXT)
        take_turn(it, quantum);
}

static struct world new_world(sfi_u32 rounds, int ending) {
    struct world it = { .hart.data = sfi_new_data(sandbox, 1) };
    if (it.hart.data == NULL)
        abort();
    restart(&it, rounds, ending);
    return it;
}

/* What the translation's functions make of a run in turns of so many steps; its data are to be freed. */
static struct world translated(sfi_u32 rounds, int ending, sfi_u32 quantum) {
    struct world it = { .hart.data = malloc(sandbox->data_size) };
    if (it.hart.data == NULL)
        abort();
    restart(&it, rounds, ending);
    while (it.how == SFI_NEXT) {
        it.hart.left = quantum;
        it.how = sfi_turn(sandbox, &it.hart, &it.at);
    }
    return it;
}

static int is_same(const struct world *it, const struct world *other) {
    return it->how == other->how && it->at == other->at && it->hart.pc == other->hart.pc && it->hart.left == other->hart.left &&
        memcmp(it->hart.x, other->hart.x, sizeof it->hart.x) == 0 && memcmp(it->hart.data, other->hart.data, sandbox->data_size) == 0;
}

/* Whether it has ended as the translation does, after turns of so many steps. */
static int is_as_translated(const struct world *it, sfi_u32 rounds, int ending, sfi_u32 quantum) {
    const struct world other = translated(rounds, ending, quantum);
    const int is_right = is_same(it, &other);
    free(other.hart.data);
    return is_right;
}

/* A world's whole run, in turns of so many steps. */
static void try_run(sfi_u32 rounds, int ending, sfi_u32 quantum, const char *what) {
    struct world it = new_world(rounds, ending);
    run(&it, quantum);
    check(is_as_translated(&it, rounds, ending, quantum), what);
    sfi_free_data(sandbox, 1, it.hart.data);
}

/* Runs with each ending. */
static void try_endings(const char *what) {
    static const int endings[] = { BY_EXIT, ABOVE, BELOW };
    for (size_t k = 0; k < sizeof endings / sizeof *endings; k++)
        try_run(ROUNDS, endings[k], 1000000, what);
}

/* ---- children, timers, the words of a host */

static void end_child(pid_t child, const char *what) {
    int status = -1;
    check(child > 0 && waitpid(child, &status, 0) == child && status == 0, what);
}

/* Has a timer of the real time send SIGALRM each so many microseconds; none where that is 0. */
static void set_timer(void (*handler)(int), int flags, int microseconds) {
    const struct itimerval timer = { { 0, microseconds }, { 0, microseconds } };
    struct sigaction action = { .sa_flags = SA_RESTART | flags };
    action.sa_handler = handler;
    sigaction(SIGALRM, &action, NULL);
    setitimer(ITIMER_REAL, &timer, NULL);
}

static int read_file(const char *path) {
    FILE *const from = fopen(path, "rb");
    if (from == NULL || fseek(from, 0, SEEK_END))
        return 0;
    length = (size_t)ftell(from);
    rewind(from);
    file = malloc(length);
    const int is_read = file != NULL && fread(file, 1, length, from) == length;
    fclose(from);
    return is_read;
}

#endif
