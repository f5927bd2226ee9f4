/* Runs that a watch cuts, and that another thread, a signal or a time ends: limit PLUGIN [IMAGE..], where PLUGIN is that of
 * failed_calls.s. A run of any image that is cut at random and taken up again leaves what one that nothing cuts does. The host says
 * "all is so", or what isn't. */
#include "alike.h"
#include "sfi_run_limit.h"
#include <pthread.h>
#include <signal.h>

enum { STEPS = 300, ARGUMENT = 5, ANSWER = 7, CUTS = 40, MOST_STEPS = 30000 };

static uint32_t ask, spin; /* addresses */
static struct sfi_run_limit limit = SFI_RUN_NO_LIMIT;

/* ---- cuts at random */

static bool may_go_on(void *context) {
    (void)context;
    return any() % 16 != 0;
}

static void is_cut_at_random(const char *name) {
    struct sfi_run_world whole = SFI_RUN_NO_WORLD, cut = SFI_RUN_NO_WORLD;
    struct sfi_run_event event;
    load_file(name, &whole), load_file(name, &cut);
    for (int k = 0; k < CUTS; k++) {
        const struct sfi_run_watch watch = {any() % 1000, may_go_on, NULL};
        const uint64_t steps = any() % MOST_STEPS;
        const uint64_t end = sfi_run_steps(&whole, 0) + steps;
        const uint32_t kind = sfi_run_serve(&whole, 0, steps, answers, NULL, &event);
        uint32_t found;
        do
            found = sfi_run_serve_watched(&cut, 0, end - sfi_run_steps(&cut, 0), answers, NULL, &watch, &event);
        while (found == SFI_RUN_CUT);
        wanted(found == kind && stand_alike(&whole, &cut, 0) && sfi_run_steps(&whole, 0) == sfi_run_steps(&cut, 0), name);
    }
    sfi_run_free(&whole), sfi_run_free(&cut);
}

/* ---- limits of one call */

static enum sfi_run_ended call(struct sfi_run_world *world, uint32_t pc, sfi_run_handler *serve, uint64_t *result) {
    const struct sfi_run_watch watch = sfi_run_limit_watch(&limit);
    const uint32_t arguments[8] = {ARGUMENT};
    return sfi_run_function_watched(world, 0, pc, arguments, UINT64_MAX, serve, NULL, &watch, result);
}

static bool replies(struct sfi_run_world *world, uint32_t i, const struct sfi_run_event *event, void *context) {
    (void)event, (void)context;
    return sfi_run_reply(world, i, ANSWER, 0);
}

/* After a cut the next call is right. */
static void is_callable(struct sfi_run_world *world, const char *what) {
    uint64_t result = 0;
    sfi_run_limit_renew(&limit);
    wanted(call(world, ask, replies, &result) == SFI_RUN_RETURNED && (uint32_t)result == ANSWER + ARGUMENT, what);
}

static void *end_soon(void *unused) {
    const struct timespec soon = {0, 20000000};
    nanosleep(&soon, NULL);
    sfi_run_limit_end(&limit);
    return unused;
}

static void another_thread(struct sfi_run_world *world) {
    pthread_t thread;
    uint64_t result;
    wanted(!pthread_create(&thread, NULL, end_soon, NULL), "a thread");
    wanted(call(world, spin, NULL, &result) == SFI_RUN_ENDED_CUT, "another thread ends a loop");
    pthread_join(thread, NULL);
    const uint64_t before = sfi_run_steps(world, 0);
    wanted(call(world, spin, NULL, &result) == SFI_RUN_ENDED_CUT && sfi_run_steps(world, 0) == before, "and later runs of that limit");
    is_callable(world, "a call after it");
}

static void a_time(struct sfi_run_world *world) {
    const uint64_t before = sfi_run_limit_clock();
    uint64_t result;
    sfi_run_limit_time(&limit, 30000000);
    wanted(call(world, spin, NULL, &result) == SFI_RUN_ENDED_CUT, "a time ends a loop");
    wanted(sfi_run_limit_clock() - before >= 30000000, "and no sooner");
    is_callable(world, "a call after a time");
    sfi_run_limit_time(&limit, UINT64_MAX);
    wanted(call(world, ask, replies, &result) == SFI_RUN_RETURNED, "the longest time ends nothing");
    sfi_run_limit_renew(&limit);
}

static uint64_t looks; /* at the host's own clock */

static uint64_t count_looks(void) { return looks++; }

static void a_clock_of_ones_own(struct sfi_run_world *world) {
    const uint64_t before = sfi_run_steps(world, 0);
    uint64_t result;
    looks = 0, limit.deadline = 5, limit.now = count_looks;
    wanted(call(world, spin, NULL, &result) == SFI_RUN_ENDED_CUT && sfi_run_steps(world, 0) - before == 5 * SFI_RUN_LIMIT_STEPS,
           "a turn has so many steps");
    is_callable(world, "a call after five looks");
}

static void on_signal(int number) {
    (void)number;
    sfi_run_limit_end(&limit);
}

static bool signals(struct sfi_run_world *world, uint32_t i, const struct sfi_run_event *event, void *context) {
    return !raise(SIGUSR1) && replies(world, i, event, context);
}

static bool spins(struct sfi_run_world *world, uint32_t i, const struct sfi_run_event *event, void *context) {
    uint64_t result;
    looks = 0, limit.deadline = 2, limit.now = count_looks;
    wanted(call(world, spin, NULL, &result) == SFI_RUN_ENDED_CUT, "a function that a handler calls is cut");
    return replies(world, i, event, context);
}

static bool spins_and_renews(struct sfi_run_world *world, uint32_t i, const struct sfi_run_event *event, void *context) {
    const bool is_replied = spins(world, i, event, context);
    sfi_run_limit_renew(&limit);
    return is_replied;
}

static void handlers(struct sfi_run_world *world) {
    uint64_t result;
    signal(SIGUSR1, on_signal);
    wanted(call(world, ask, signals, &result) == SFI_RUN_ENDED_CUT, "a signal ends a run");
    is_callable(world, "a call after a signal");
    wanted(call(world, ask, spins, &result) == SFI_RUN_ENDED_CUT, "and so is the function that called the host");
    is_callable(world, "a call after nested ones");
    wanted(call(world, ask, spins_and_renews, &result) == SFI_RUN_RETURNED && (uint32_t)result == ANSWER + ARGUMENT,
           "which else goes on");
}

/* What a run that begins with an ended limit finds. */
static void ended_before(struct sfi_run_world *world) {
    const struct sfi_run_watch watch = sfi_run_limit_watch(&limit);
    const uint32_t arguments[8] = {ARGUMENT};
    struct sfi_run_event event;
    sfi_run_limit_end(&limit);
    wanted(sfi_run_serve_watched(world, 0, STEPS, replies, NULL, &watch, &event) == SFI_RUN_EXITED, "what has stopped isn't cut");
    wanted(sfi_run_serve_watched(world, 9, STEPS, replies, NULL, &watch, &event) == SFI_RUN_NONE, "nor what isn't there");
    wanted(sfi_run_call(world, 0, ask, arguments, STEPS, &event) && event.kind == SFI_RUN_CALL, "a call of a gate");
    wanted(sfi_run_serve_watched(world, 0, STEPS, replies, NULL, &watch, &event) == SFI_RUN_CUT && event.kind == SFI_RUN_CALL,
           "a call that waits goes on waiting");
    sfi_run_limit_renew(&limit);
    wanted(sfi_run_serve_watched(world, 0, STEPS, answers, NULL, &watch, &event) == SFI_RUN_EXITED, "until a run that isn't cut");
}

/* Loads the plug-in, has it tell where its functions are, and stops it. */
static void begin(const char *name, struct sfi_run_world *world) {
    struct sfi_run_event event;
    load_file(name, world);
    wanted(sfi_run_turn(world, 0, STEPS, &event) == SFI_RUN_CALL && event.number == 1 && sfi_run_stop(world, 0), "the start");
    ask = event.a1, spin = event.a4;
}

int main(int count, char **words) {
    struct sfi_run_world world = SFI_RUN_NO_WORLD;
    if (count < 2)
        return 3;
    begin(words[1], &world);
    another_thread(&world);
    a_time(&world);
    a_clock_of_ones_own(&world);
    handlers(&world);
    ended_before(&world);
    sfi_run_free(&world);
    for (int k = 1; k < count; k++)
        is_cut_at_random(words[k]);
    printf("all is so\n");
    return 0;
}
