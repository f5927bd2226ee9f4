/*
 * Runs of whole budgets, over the calls of sfi_run.h: a host hands over a function that serves a gate call, and gets the
 * sandbox back once it has stopped, used its steps, or stands at a call that isn't replied to. And what an image claims that
 * its functions take and give. It is C99, or C++, and the host's own code: nothing here is proved, and whatever it does, the
 * calls below it keep what they keep.
 */
#ifndef SFI_RUN_SERVE_H
#define SFI_RUN_SERVE_H

#include <string.h>

#include "sfi_run.h"

#ifdef __cplusplus
extern "C" {
#endif

/*
 * Serves the call at which a sandbox stands: reads and writes its data, calls functions of it or runs others, and then replies
 * by sfi_run_reply or sfi_run_exit. Returns whether the run goes on; where it doesn't, or there was no reply, the run is over.
 * `context` is what was handed over with it.
 */
typedef bool sfi_run_handler(struct sfi_run_world *world, uint32_t sandbox, const struct sfi_run_event *call, void *context);

/*
 * What sfi_run_serve returns, beside enum sfi_run_kind, where the call is gone that was to be served: `serve` reset, entered,
 * set or removed the sandbox, had it run on after the reply, or removed one of a lower number, so that the number is another's.
 */
enum { SFI_RUN_GONE = 6 };

/*
 * What may cut a run short: `goes_on` is asked before each turn of it, and a turn has at most `steps` steps (as many as it can
 * where that is 0). It may look at a clock, or at a word that another thread writes: sfi_run_limit.h has both, ready made.
 */
struct sfi_run_watch {
    uint32_t steps;
    bool (*goes_on)(void *context);
    void *context;
};

/* What sfi_run_serve_watched returns, too: its watch cut the run. */
enum { SFI_RUN_CUT = 7 };

/*
 * Runs a sandbox for at most `steps` steps in all, and has each of its calls served. Writes to *event how it stands then, and
 * returns the event's kind, as sfi_run_event does, or SFI_RUN_GONE. Each reply is a step: a call for which none is left is
 * served in the next run. Steps of functions that `serve` calls count, too: where they use up all that are left, the run is
 * over.
 *
 * Where `watch` isn't NULL, it returns SFI_RUN_CUT as soon as that doesn't go on and the sandbox is ready or stands at a call.
 * Nothing is lost: a run of the steps that are left does what one run would have done.
 */
static inline uint32_t sfi_run_serve_watched(struct sfi_run_world *world, uint32_t sandbox, uint64_t steps,
                                             sfi_run_handler *serve, void *context, const struct sfi_run_watch *watch,
                                             struct sfi_run_event *event) {
    struct sfi_run_registers after;
    uint64_t now = sfi_run_steps(world, sandbox);
    const uint64_t end = steps < UINT64_MAX - now ? now + steps : UINT64_MAX;
    const uint32_t most = watch != NULL && watch->steps != 0 ? watch->steps : UINT32_MAX;
    while (now < end) {
        if (watch != NULL && !watch->goes_on(watch->context)) {
            const uint32_t found = sfi_run_event(world, sandbox, event);
            return found == SFI_RUN_READY || found == SFI_RUN_CALL ? (uint32_t)SFI_RUN_CUT : found;
        }
        const uint64_t left = end - now, turn = left < most ? left : most;
        const uint32_t kind = sfi_run_turn(world, sandbox, (uint32_t)turn, event);
        const uint64_t before = sfi_run_steps(world, sandbox);
        now = before;
        if (kind == SFI_RUN_READY)
            continue; /* there were more steps than this turn takes, or none is left */
        if (kind != SFI_RUN_CALL || now >= end)
            return kind;
        const uint32_t call = event->pc;
        const bool goes_on = serve(world, sandbox, event, context);
        const bool is_there = sfi_run_registers(world, sandbox, &after); /* quicker than an event */
        now = sfi_run_steps(world, sandbox);
        if (is_there && after.pc == call + 4 && now > before && goes_on)
            continue;
        const uint32_t found = sfi_run_event(world, sandbox, event);
        /* where pc is still at the call, it has exited or is stopped there, or has no reply */
        return is_there && (after.pc == call || after.pc == call + 4) && now >= before ? found : (uint32_t)SFI_RUN_GONE;
    }
    return sfi_run_event(world, sandbox, event);
}

/* The same, and nothing cuts it. */
static inline uint32_t sfi_run_serve(struct sfi_run_world *world, uint32_t sandbox, uint64_t steps, sfi_run_handler *serve,
                                     void *context, struct sfi_run_event *event) {
    return sfi_run_serve_watched(world, sandbox, steps, serve, context, NULL, event);
}

/* How the call of a function ended. */
enum sfi_run_ended {
    SFI_RUN_RETURNED = 0,          /* it returned, or exited */
    SFI_RUN_ENDED_NO_FUNCTION = 1, /* there is no such sandbox, or none of its code can be entered at that address */
    SFI_RUN_ENDED_BUSY = 2,        /* the sandbox is in the midst of a run: it neither has stopped nor stands at a call */
    SFI_RUN_ENDED_TRAPPED = 3,
    SFI_RUN_ENDED_STEPS_USED = 4,
    SFI_RUN_ENDED_REFUSED = 5, /* `serve` answered false, gave no reply, or is NULL */
    SFI_RUN_ENDED_STOPPED = 6, /* `serve` stopped the sandbox */
    SFI_RUN_ENDED_GONE = 7,    /* SFI_RUN_GONE: `serve` did something else with the sandbox */
    SFI_RUN_ENDED_CUT = 8      /* SFI_RUN_CUT: the watch ended it */
};

/* What sfi_run_function hands its own handler, and learns from it. */
struct sfi_run_serving {
    sfi_run_handler *serve;
    void *context;
    uint32_t high; /* a1 at the call by which the function returned */
    bool is_refused;
};

static inline bool sfi_run_serve_function(struct sfi_run_world *world, uint32_t sandbox, const struct sfi_run_event *call,
                                          void *context) {
    struct sfi_run_serving *own = (struct sfi_run_serving *)context;
    if (call->number == 0) {
        own->high = call->a1;
        return sfi_run_exit(world, sandbox, call->a0);
    }
    own->is_refused = own->serve == NULL || !own->serve(world, sandbox, call, own->context);
    return !own->is_refused;
}

/* How a call ended whose run ended as this kind: `is_refused` by `serve`, or with steps left. */
static inline enum sfi_run_ended sfi_run_ended_by(uint32_t kind, bool is_refused, bool has_steps) {
    switch (kind) {
    case SFI_RUN_READY:
    case SFI_RUN_CALL:
        return is_refused || has_steps ? SFI_RUN_ENDED_REFUSED : SFI_RUN_ENDED_STEPS_USED;
    case SFI_RUN_EXITED:
        return is_refused ? SFI_RUN_ENDED_REFUSED : SFI_RUN_RETURNED;
    case SFI_RUN_TRAPPED:
        return SFI_RUN_ENDED_TRAPPED;
    case SFI_RUN_STOPPED:
        return SFI_RUN_ENDED_STOPPED;
    case SFI_RUN_CUT:
        return SFI_RUN_ENDED_CUT;
    default:
        return SFI_RUN_ENDED_GONE;
    }
}

/*
 * Calls a function, and runs it for at most `steps` steps in all: sfi_run_enter, or sfi_run_call_back where the sandbox stands
 * at a call, and then sfi_run_serve. `serve`, which may be NULL, serves its calls of other services than 0, and may call
 * functions in its turn. Writes to *result what the function returned or exited with: a0, and above it a1 (of an exit by
 * `serve` 0); and where it trapped the cause, and above it the address, as an event has them. Else nothing is written.
 *
 * However it ended, the call is over, and the next one can come. Where the sandbox stood at a call, it stands there again, and
 * waits for the reply; else it has stopped, if need be by sfi_run_stop. Its data are as the function left them. Of a call that is
 * gone nothing is put back: a sandbox that is still there is stopped then. One that wasn't entered (NO_FUNCTION, BUSY) stays as it
 * was. Who wants to go on after used steps, or a cut, calls sfi_run_enter and sfi_run_serve.
 *
 * `watch` is that of sfi_run_serve_watched. A function that `serve` calls is another run, which wants the watch, too: else no more
 * of the watch is asked before that is over.
 */
static inline enum sfi_run_ended sfi_run_function_watched(struct sfi_run_world *world, uint32_t sandbox, uint32_t pc,
                                                          const uint32_t arguments[8], uint64_t steps, sfi_run_handler *serve,
                                                          void *context, const struct sfi_run_watch *watch, uint64_t *result) {
    struct sfi_run_serving own = {serve, context, 0, false};
    struct sfi_run_registers kept;
    struct sfi_run_region data = {0, 0}, found;
    struct sfi_run_event event;
    const bool is_back = sfi_run_call_back(world, sandbox, pc, arguments, &kept);
    if (!is_back && !sfi_run_enter(world, sandbox, pc, arguments))
        return sfi_run_event(world, sandbox, &event) == SFI_RUN_READY ? SFI_RUN_ENDED_BUSY : SFI_RUN_ENDED_NO_FUNCTION;
    const uint64_t before = sfi_run_steps(world, sandbox);
    sfi_run_data(world, sandbox, &data);
    const uint32_t kind = sfi_run_serve_watched(world, sandbox, steps, sfi_run_serve_function, &own, watch, &event);
    const enum sfi_run_ended how = sfi_run_ended_by(kind, own.is_refused, sfi_run_steps(world, sandbox) - before < steps);
    if (how == SFI_RUN_RETURNED || how == SFI_RUN_ENDED_TRAPPED)
        *result = event.number | (uint64_t)(how == SFI_RUN_RETURNED ? own.high : event.a0) << 32;
    if (is_back && how != SFI_RUN_ENDED_GONE)
        sfi_run_set_registers(world, sandbox, &kept);
    else if (how != SFI_RUN_RETURNED && sfi_run_data(world, sandbox, &found) && found.base == data.base)
        sfi_run_stop(world, sandbox);
    return how;
}

/* The same, and nothing cuts it. */
static inline enum sfi_run_ended sfi_run_function(struct sfi_run_world *world, uint32_t sandbox, uint32_t pc,
                                                  const uint32_t arguments[8], uint64_t steps, sfi_run_handler *serve,
                                                  void *context, uint64_t *result) {
    return sfi_run_function_watched(world, sandbox, pc, arguments, steps, serve, context, NULL, result);
}

/* ---- signatures: what a function takes and gives, as the image claims */

/* How many words the values of these letters take in registers, up to the end or a ')'; or 9 where one is no parameter's. */
static inline uint32_t sfi_run_words(const char *letters, const char *end) {
    uint32_t words = 0;
    for (; letters < end && *letters != ')'; letters++) {
        if (*letters == 0 || strchr("ychktiulmfdpsbw", *letters) == NULL)
            return 9;
        words += strchr("lmdbw", *letters) != NULL ? 2 : 1;
        if (words > 8)
            return 9;
    }
    return words;
}

/* Whether text that begins with '(' is a signature: letters of parameters, which take at most eight words, and of a result. */
static inline bool sfi_run_is_signature(const char *text, size_t size) {
    return size >= 3 && text[0] == '(' && text[size - 2] == ')' && memchr(text, ')', size) == text + size - 2 &&
           sfi_run_words(text + 1, text + size - 2) <= 8 && text[size - 1] != 0 && strchr("ychktiulmfdpsv", text[size - 1]) != NULL;
}

/* Among which names of a table a signature is looked for. */
enum sfi_run_side { SFI_RUN_EXPORTS, SFI_RUN_IMPORTS };

/* Of how many names a signature is looked for: each costs a look at the whole table, and in more it would take long. */
#define SFI_RUN_SIGNED_MOST 512

static inline uint32_t sfi_run_entry_at(const uint8_t *image, size_t length, uint32_t sandbox, enum sfi_run_side side,
                                        uint32_t index, uint8_t name[SFI_RUN_NAME_MOST], uint32_t *size, uint32_t *number) {
    return side == SFI_RUN_EXPORTS ? sfi_run_export_at(image, length, sandbox, index, name, size, number)
                                   : sfi_run_import_at(image, length, sandbox, index, name, size, number);
}

/*
 * Writes to `signature` what the image claims of the function `name`, an export or an import of one of its sandboxes: "(ii)i"
 * of `int add(int, int)`, ended by 0 (docs/IMAGE.md has the letters, and how a caller extends narrow values). It is the first
 * entry of number 0 among those names which is a point, `name` and a signature. Returns one of enum sfi_run_names, where
 * SFI_RUN_NAMES_NO_NAME says that the table claims nothing of it, or has more than SFI_RUN_SIGNED_MOST of those names with their
 * claims; nothing is written then. It is a claim of the image's author, and no premise of anything: a host compares it with what
 * it means to call, so that the two don't mistake each other.
 */
static inline uint32_t sfi_run_signature(const uint8_t *image, size_t length, uint32_t sandbox, enum sfi_run_side side,
                                         const char *name, char signature[SFI_RUN_NAME_MOST]) {
    uint8_t entry[SFI_RUN_NAME_MOST];
    const size_t before = strlen(name) + 1;
    uint32_t size, number, index;
    if (sfi_run_entry_at(image, length, sandbox, side, SFI_RUN_SIGNED_MOST, entry, &size, &number) == SFI_RUN_NAMES_FOUND)
        return SFI_RUN_NAMES_NO_NAME;
    for (index = 0;; index++) {
        const uint32_t found = sfi_run_entry_at(image, length, sandbox, side, index, entry, &size, &number);
        if (found != SFI_RUN_NAMES_FOUND)
            return found;
        if (number != 0 || size <= before || entry[0] != '.' || memcmp(entry + 1, name, before - 1) != 0 ||
            !sfi_run_is_signature((const char *)entry + before, size - before))
            continue;
        memcpy(signature, entry + before, size - before);
        signature[size - before] = 0;
        return SFI_RUN_NAMES_FOUND;
    }
}

#ifdef __cplusplus
}
#endif

#endif
