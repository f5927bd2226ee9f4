/*
 * Runs that another thread ends, or a time: a limit is the watch of sfi_run_serve_watched and sfi_run_function_watched. It wants
 * C11 with atomics, or C++11. Like sfi_run_serve.h it is the host's own code, of which nothing is proved.
 *
 *     static struct sfi_run_limit limit = SFI_RUN_NO_LIMIT;
 *
 *     const struct sfi_run_watch watch = sfi_run_limit_watch(&limit);
 *     sfi_run_limit_time(&limit, 20000000); // 20 milliseconds
 *     how = sfi_run_function_watched(&world, 0, pc, arguments, UINT64_MAX, serve, NULL, &watch, &result);
 *
 * Meanwhile another thread, or a signal handler, may say sfi_run_limit_end(&limit). Where either ended it, `how` is SFI_RUN_ENDED_CUT.
 * With -std=c11 sfi_run_limit_time wants -D_POSIX_C_SOURCE=200809L.
 */
#ifndef SFI_RUN_LIMIT_H
#define SFI_RUN_LIMIT_H

#include <time.h>

#include "sfi_run_serve.h"

#ifdef __cplusplus
#include <atomic>
typedef std::atomic<bool> sfi_run_flag;
#define SFI_RUN_NO_LIMIT {{false}, 0, NULL}
#else
#include <stdatomic.h>
typedef atomic_bool sfi_run_flag;
#define SFI_RUN_NO_LIMIT {false, 0, NULL}
#endif

/* How many steps a watched run may take before it looks at its limit again: interpreted about a millisecond. */
#define SFI_RUN_LIMIT_STEPS 100000

/* When a run is to end: begin with `struct sfi_run_limit limit = SFI_RUN_NO_LIMIT;`, which ends none. Several runs may have the same. */
struct sfi_run_limit {
    sfi_run_flag is_ended;     /* the only field that may be written while a run has the limit */
    uint64_t deadline;         /* the time from which on no turn begins, where `now` isn't NULL */
    uint64_t (*now)(void);     /* the host's clock, in any unit, which never goes back */
};

/* Ends the runs that have this limit, those that begin later, too, until sfi_run_limit_renew. Any thread may call it at any time
 * while the limit is there, and where flags are lock-free (ATOMIC_BOOL_LOCK_FREE is 2) also a signal handler. What was written
 * before can be read by the thread of a run that it ends. */
static inline void sfi_run_limit_end(struct sfi_run_limit *limit) {
#ifdef __cplusplus
    limit->is_ended.store(true, std::memory_order_release);
#else
    atomic_store_explicit(&limit->is_ended, true, memory_order_release);
#endif
}

/* Takes that back, and the deadline. */
static inline void sfi_run_limit_renew(struct sfi_run_limit *limit) {
    limit->now = NULL;
#ifdef __cplusplus
    limit->is_ended.store(false, std::memory_order_release);
#else
    atomic_store_explicit(&limit->is_ended, false, memory_order_release);
#endif
}

/* Whether the limit, which is a struct sfi_run_limit, lets a run go on. */
static inline bool sfi_run_limit_goes_on(void *context) {
    struct sfi_run_limit *limit = (struct sfi_run_limit *)context;
#ifdef __cplusplus
    const bool is_ended = limit->is_ended.load(std::memory_order_acquire);
#else
    const bool is_ended = atomic_load_explicit(&limit->is_ended, memory_order_acquire);
#endif
    return !is_ended && (limit->now == NULL || limit->now() < limit->deadline);
}

/* The watch of a limit, for as many runs as are wanted, while the limit is there. */
static inline struct sfi_run_watch sfi_run_limit_watch(struct sfi_run_limit *limit) {
    struct sfi_run_watch watch;
    watch.steps = SFI_RUN_LIMIT_STEPS;
    watch.goes_on = sfi_run_limit_goes_on;
    watch.context = limit;
    return watch;
}

#ifdef CLOCK_MONOTONIC /* as POSIX has it: -D_POSIX_C_SOURCE=200809L where the compiler is told -std=c11 */
/* Nanoseconds of a clock that nobody sets. */
static inline uint64_t sfi_run_limit_clock(void) {
    struct timespec now;
    clock_gettime(CLOCK_MONOTONIC, &now);
    return (uint64_t)now.tv_sec * 1000000000 + (uint64_t)now.tv_nsec;
}

/* The runs that have this limit end once so many nanoseconds have passed from now on, but for the turn that is under way then. */
static inline void sfi_run_limit_time(struct sfi_run_limit *limit, uint64_t nanoseconds) {
    const uint64_t now = sfi_run_limit_clock();
    limit->deadline = nanoseconds < UINT64_MAX - now ? now + nanoseconds : UINT64_MAX;
    limit->now = sfi_run_limit_clock;
}
#endif

#endif
