/* What calls leave that don't return: failed_calls IMAGE, of failed_calls.s. Each way in which one can end is tried by itself, again
 * and again, and in a call-back, whose caller goes on. The host says "all is so", or what isn't. */
#include "host.h"
#include <inttypes.h>
#include <string.h>

enum { TELL = 1, STEPS = 300, TIMES = 2000, LAST = 61, LAST_WORD = 1061, ARGUMENT = 5, ANSWER = 7 };

static uint32_t get, ask, wide, breaks, spin; /* addresses */
static uint64_t to_call; /* steps that `ask` takes up to its call */
static struct sfi_run_region data;

static void wanted(bool is_so, const char *row, const char *what) {
    if (is_so)
        return;
    printf("%s: %s isn't so\n", row, what);
    exit(1);
}

/* ---- what a handler does at the call */

typedef bool action(struct sfi_run_world *world, uint32_t i);

static sfi_run_handler serve; /* whose context is what it does */

static enum sfi_run_ended call(struct sfi_run_world *world, uint32_t pc, uint64_t steps, action *does, uint64_t *result) {
    const uint32_t arguments[8] = {ARGUMENT};
    return sfi_run_function(world, 0, pc, arguments, steps, serve, &does, result);
}

static bool serve(struct sfi_run_world *world, uint32_t i, const struct sfi_run_event *event, void *context) {
    (void)event;
    return (*(action **)context)(world, i);
}

static bool replies(struct sfi_run_world *world, uint32_t i) { return sfi_run_reply(world, i, ANSWER, 0); }

static bool refuses(struct sfi_run_world *world, uint32_t i) { return !world || i != 0; }

static bool goes_on(struct sfi_run_world *world, uint32_t i) { return world && i == 0; }

static bool replies_last(struct sfi_run_world *world, uint32_t i) { return !replies(world, i); }

static bool exits(struct sfi_run_world *world, uint32_t i) { return sfi_run_exit(world, i, 42); }

static bool exits_last(struct sfi_run_world *world, uint32_t i) { return !exits(world, i); }

static bool stops(struct sfi_run_world *world, uint32_t i) { return sfi_run_stop(world, i); }

static bool stops_last(struct sfi_run_world *world, uint32_t i) { return !stops(world, i); }

static bool replies_and_stops(struct sfi_run_world *world, uint32_t i) { return replies(world, i) && stops(world, i); }

static bool resets(struct sfi_run_world *world, uint32_t i) { return sfi_run_reset(world, i); }

static bool resets_last(struct sfi_run_world *world, uint32_t i) { return !resets(world, i); }

static bool enters(struct sfi_run_world *world, uint32_t i) {
    const uint32_t arguments[8] = {LAST};
    return stops(world, i) && sfi_run_enter(world, i, get, arguments);
}

/* Has another function done, to its end or as far as `steps` go. */
static bool enters_and_runs(struct sfi_run_world *world, uint32_t i, uint32_t pc, uint32_t steps) {
    const uint32_t arguments[8] = {LAST};
    uint64_t result;
    return stops(world, i) && sfi_run_function(world, i, pc, arguments, steps, NULL, NULL, &result) < SFI_RUN_ENDED_GONE;
}

static bool calls_another(struct sfi_run_world *world, uint32_t i) { return enters_and_runs(world, i, get, STEPS); }

static bool cuts_another_off(struct sfi_run_world *world, uint32_t i) { return enters_and_runs(world, i, spin, 10); }

static bool breaks_another(struct sfi_run_world *world, uint32_t i) { return enters_and_runs(world, i, breaks, STEPS); }

static bool comes_again(struct sfi_run_world *world, uint32_t i) {
    const uint32_t arguments[8] = {ARGUMENT};
    struct sfi_run_event event;
    return resets(world, i) && stops(world, i) && sfi_run_call(world, i, ask, arguments, STEPS, &event) && replies(world, i);
}

static bool goes_to(struct sfi_run_world *world, uint32_t i, uint32_t pc) {
    struct sfi_run_registers registers;
    sfi_run_registers(world, i, &registers);
    registers.pc = pc ? pc : registers.pc + 4;
    return sfi_run_set_registers(world, i, &registers);
}

static bool sets_pc(struct sfi_run_world *world, uint32_t i) { return goes_to(world, i, spin); }

static bool passes_over(struct sfi_run_world *world, uint32_t i) { return goes_to(world, i, 0); }

static bool runs_on(struct sfi_run_world *world, uint32_t i) {
    struct sfi_run_event event;
    return replies(world, i) && sfi_run_turn(world, i, 1, &event) == SFI_RUN_READY;
}

static bool uses_steps(struct sfi_run_world *world, uint32_t i) {
    uint64_t result;
    wanted(call(world, spin, STEPS, NULL, &result) == SFI_RUN_ENDED_STEPS_USED, "uses steps", "the cause within");
    return replies(world, i);
}

static bool calls_but_gives_no_reply(struct sfi_run_world *world, uint32_t i) {
    const uint32_t arguments[8] = {LAST};
    uint64_t result;
    return sfi_run_function(world, i, get, arguments, STEPS, NULL, NULL, &result) == SFI_RUN_RETURNED && result == LAST_WORD;
}

/* ---- how a call ends, then */

static const struct row {
    const char *name;
    const uint32_t *pc;
    action *does;
    uint64_t steps; /* or 0: as many as come to the call */
    enum sfi_run_ended how;
    bool is_reset; /* whether the data are the first ones then */
} rows[] = {
    {"answers false", &ask, refuses, STEPS, SFI_RUN_ENDED_REFUSED, false},
    {"no reply", &ask, goes_on, STEPS, SFI_RUN_ENDED_REFUSED, false},
    {"passes over the call", &ask, passes_over, STEPS, SFI_RUN_ENDED_REFUSED, false},
    {"calls back, and gives no reply", &ask, calls_but_gives_no_reply, STEPS, SFI_RUN_ENDED_REFUSED, false},
    {"replies, and answers false", &ask, replies_last, STEPS, SFI_RUN_ENDED_REFUSED, false},
    {"exits, and answers false", &ask, exits_last, STEPS, SFI_RUN_ENDED_REFUSED, false},
    {"stops", &ask, stops, STEPS, SFI_RUN_ENDED_STOPPED, false},
    {"stops, and answers false", &ask, stops_last, STEPS, SFI_RUN_ENDED_STOPPED, false},
    {"replies and stops", &ask, replies_and_stops, STEPS, SFI_RUN_ENDED_STOPPED, false},
    {"a trap", &breaks, replies, STEPS, SFI_RUN_ENDED_TRAPPED, false},
    {"steps used", &spin, replies, STEPS, SFI_RUN_ENDED_STEPS_USED, false},
    {"steps used at a call", &ask, refuses, 0, SFI_RUN_ENDED_STEPS_USED, false},
    {"steps used by a function of the handler's", &ask, uses_steps, STEPS, SFI_RUN_ENDED_STEPS_USED, false},
    {"resets", &ask, resets, STEPS, SFI_RUN_ENDED_GONE, true},
    {"resets, and answers false", &ask, resets_last, STEPS, SFI_RUN_ENDED_GONE, true},
    {"resets, and comes to the call again", &ask, comes_again, STEPS, SFI_RUN_ENDED_GONE, true},
    {"stops and enters", &ask, enters, STEPS, SFI_RUN_ENDED_GONE, false},
    {"stops and calls", &ask, calls_another, STEPS, SFI_RUN_ENDED_GONE, false},
    {"stops and cuts another off", &ask, cuts_another_off, STEPS, SFI_RUN_ENDED_GONE, false},
    {"stops, and another traps", &ask, breaks_another, STEPS, SFI_RUN_ENDED_GONE, false},
    {"sets pc", &ask, sets_pc, STEPS, SFI_RUN_ENDED_GONE, false},
    {"replies and runs on", &ask, runs_on, STEPS, SFI_RUN_ENDED_GONE, false},
};
enum { ROWS = sizeof rows / sizeof *rows };

static uint32_t word(struct sfi_run_world *world, uint32_t number) {
    uint32_t found = 0;
    sfi_run_read(world, 0, data.base + 4 * number, sizeof found, (uint8_t *)&found, sizeof found); /* little-endian, as it is */
    return found;
}

static void write_last(struct sfi_run_world *world) {
    const uint32_t last = LAST_WORD;
    wanted(sfi_run_write(world, 0, data.base + 4 * LAST, (const uint8_t *)&last, sizeof last), "the data", "that they are written");
}

/* Makes a row's call: the cause is told, and nothing but the function's own count has changed in the data. */
static enum sfi_run_ended fails(struct sfi_run_world *world, const struct row *row) {
    const uint32_t count = word(world, 0);
    uint64_t result = 9;
    const enum sfi_run_ended how = call(world, *row->pc, row->steps ? row->steps : to_call, row->does, &result);
    wanted(how == row->how, row->name, "the cause");
    if (how == SFI_RUN_ENDED_TRAPPED)
        wanted((uint32_t)result == SFI_RUN_BREAK && result >> 32 > breaks && result >> 32 < spin, row->name, "the trap");
    else
        wanted(result == 9, row->name, "that nothing is written");
    wanted(row->is_reset ? word(world, 0) <= 1 : word(world, 0) > count, row->name, "the count in the data");
    if (row->is_reset)
        write_last(world);
    return how;
}

static void is_right(struct sfi_run_world *world, const char *name) {
    const uint32_t arguments[8] = {LAST}, factors[8] = {UINT32_MAX, UINT32_MAX};
    uint64_t result = 0;
    wanted(sfi_run_function(world, 0, get, arguments, STEPS, NULL, NULL, &result) == SFI_RUN_RETURNED && result << 32 >> 32 == LAST_WORD,
           name, "the next call's result");
    wanted(sfi_run_function(world, 0, wide, factors, STEPS, NULL, NULL, &result) == SFI_RUN_RETURNED && result == 0xfffffffe00000001u,
           name, "a result of 64 bits");
    wanted(call(world, ask, STEPS, replies, &result) == SFI_RUN_RETURNED && (uint32_t)result == ARGUMENT + ANSWER, name,
           "a call that is served");
}

/* ---- in a call-back, made while the outer call waits */

static const struct row *inner;

static bool fails_within(struct sfi_run_world *world, uint32_t i) {
    struct sfi_run_registers before, after;
    sfi_run_registers(world, i, &before);
    const bool is_gone = fails(world, inner) == SFI_RUN_ENDED_GONE;
    sfi_run_registers(world, i, &after);
    wanted(is_gone || !memcmp(&before, &after, sizeof before), inner->name, "that the outer call waits");
    if (!is_gone)
        is_right(world, inner->name);
    wanted(replies(world, i) == !is_gone, inner->name, "that the outer call can be replied to");
    return true;
}

static void fails_nested(struct sfi_run_world *world, const struct row *row) {
    const bool is_gone = row->how == SFI_RUN_ENDED_GONE;
    uint64_t result = 9;
    inner = row;
    const enum sfi_run_ended how = call(world, ask, 4 * STEPS, fails_within, &result);
    wanted(how == (is_gone ? SFI_RUN_ENDED_GONE : SFI_RUN_RETURNED), row->name, "how the outer call ends");
    wanted(is_gone ? result == 9 : (uint32_t)result == ARGUMENT + ANSWER, row->name, "the outer call's result");
    is_right(world, row->name);
}

/* ---- calls that aren't made */

static void is_not_entered(struct sfi_run_world *world) {
    static const uint32_t arguments[8];
    struct sfi_run_event event;
    uint64_t result = 9;
    const uint64_t steps = sfi_run_steps(world, 0);
    const uint32_t kind = sfi_run_event(world, 0, &event);
    wanted(call(world, get + 2, STEPS, NULL, &result) == SFI_RUN_ENDED_NO_FUNCTION && call(world, data.base, STEPS, NULL, &result) ==
               SFI_RUN_ENDED_NO_FUNCTION && sfi_run_function(world, 9, get, arguments, STEPS, NULL, NULL, &result) ==
               SFI_RUN_ENDED_NO_FUNCTION, "no function", "the cause");
    wanted(sfi_run_event(world, 0, &event) == kind && sfi_run_steps(world, 0) == steps && result == 9, "no function", "that nothing changes");
    wanted(sfi_run_enter(world, 0, spin, arguments) && call(world, get, STEPS, NULL, &result) == SFI_RUN_ENDED_BUSY, "busy", "the cause");
    wanted(sfi_run_event(world, 0, &event) == SFI_RUN_READY && event.pc == spin && sfi_run_steps(world, 0) == steps && result == 9, "busy",
           "that nothing changes");
    wanted(sfi_run_stop(world, 0), "busy", "that it can be stopped");
    wanted(call(world, ask, 0, NULL, &result) == SFI_RUN_ENDED_STEPS_USED && sfi_run_steps(world, 0) == steps, "no steps", "the cause");
    wanted(call(world, ask, STEPS, exits, &result) == SFI_RUN_RETURNED && result == 42, "an exit", "the result");
    is_right(world, "a call that isn't made");
}

static bool enters_or_resets(struct sfi_run_world *world, uint32_t i, const struct sfi_run_event *event, void *context) {
    (void)event;
    return (*(action **)context)(world, i);
}

/* A loop of the host's own ends, too, where the call is gone. */
static void ends_run(struct sfi_run_world *world, action *does, uint32_t kind) {
    const uint32_t arguments[8] = {ARGUMENT};
    struct sfi_run_event event;
    wanted(sfi_run_enter(world, 0, ask, arguments), "sfi_run_serve", "that it is entered");
    wanted(sfi_run_serve(world, 0, STEPS, enters_or_resets, &does, &event) == SFI_RUN_GONE && event.kind == kind, "sfi_run_serve",
           "that a call that is gone ends it");
    sfi_run_stop(world, 0);
    write_last(world);
}

/* ---- a sandbox that its handler removes: the next one has its number, and isn't stopped */

static bool is_removed;

static bool removes(struct sfi_run_world *world, uint32_t i) {
    is_removed = sfi_run_remove(world, i) == SFI_RUN_CHANGED; /* the world of a translated image keeps its sandboxes */
    return is_removed || replies(world, i);
}

static bool calls_who_removes(struct sfi_run_world *world, uint32_t i) {
    uint64_t result;
    wanted(call(world, ask, STEPS, removes, &result) == (is_removed ? SFI_RUN_ENDED_GONE : SFI_RUN_RETURNED), "removes", "the cause within");
    return is_removed || replies(world, i);
}

static void is_without(struct sfi_run_world *world, action *does) {
    struct sfi_run_event event;
    uint64_t result;
    const enum sfi_run_ended how = call(world, ask, STEPS, does, &result);
    wanted(how == (is_removed ? SFI_RUN_ENDED_GONE : SFI_RUN_RETURNED), "removes", "the cause");
    if (!is_removed)
        return;
    wanted(sfi_run_count(world) == 1 && sfi_run_event(world, 0, &event) == SFI_RUN_READY && sfi_run_steps(world, 0) == 0, "removes",
           "that the other sandbox stays");
}

/* Loads the plug-in, has it tell where its functions are, and stops it. */
static void begin(const char *name, struct sfi_run_world *world) {
    struct sfi_run_event event;
    load_file(name, world);
    wanted(sfi_run_data(world, 0, &data) && sfi_run_turn(world, 0, STEPS, &event) == SFI_RUN_CALL && event.number == TELL, name, "the start");
    get = event.a0;
    ask = event.a1;
    wide = event.a2;
    breaks = event.a3;
    spin = event.a4;
    const uint32_t arguments[8] = {ARGUMENT};
    const uint64_t before = sfi_run_steps(world, 0);
    wanted(sfi_run_stop(world, 0) && sfi_run_call(world, 0, ask, arguments, STEPS, &event) && event.kind == SFI_RUN_CALL, name, "a call");
    to_call = sfi_run_steps(world, 0) - before;
    sfi_run_stop(world, 0);
    write_last(world);
}

int main(int count, char **words) {
    struct sfi_run_world world = SFI_RUN_NO_WORLD;
    if (count < 2)
        return 3;
    begin(words[1], &world);
    is_right(&world, "the first call");
    for (int k = 0; k < ROWS; k++)
        for (int times = 0; times < TIMES; times++) {
            fails(&world, &rows[k]);
            is_right(&world, rows[k].name);
            fails_nested(&world, &rows[k]);
        }
    is_not_entered(&world);
    ends_run(&world, resets, SFI_RUN_READY);
    ends_run(&world, enters, SFI_RUN_READY);
    ends_run(&world, calls_another, SFI_RUN_EXITED);
    is_right(&world, "the last call");
    is_without(&world, removes);
    begin(words[1], &world);
    is_without(&world, calls_who_removes);
    sfi_run_free(&world);
    printf("all is so\n");
    return 0;
}
