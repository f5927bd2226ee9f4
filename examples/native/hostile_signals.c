/* A host whose signals come in the midst of turns, and take turns themselves: at each instruction, one within another, in each
   thread, on other stacks, within the handling of a fault; beside forks, beside code that is mapped anew, and beside a second copy
   of the host's own file (hostile_other.c). States are compared as hostile.c does.

       hostile_signals FILE.native TEST    prints what failed; status 0: nothing, 1: something, 3: no such test */
#define _GNU_SOURCE
#include <errno.h>
#include <limits.h>
#include <pthread.h>
#include <setjmp.h>
#include <stdatomic.h>
#include "hostile.h"
#include "hostile_other.h"

enum { MANY = 8, DEPTH = 6, TRAP_FLAG = 0x100, STACK = 1 << 16 };

/* Ends with each of three endings, by turns. */
static int ending_of(int number) {
    static const int endings[] = { BY_EXIT, ABOVE, BELOW };
    return endings[number % 3];
}

/* A world that goes through runs one after another, in turns of so many steps, and what each has to come to: known before, since a
   handler may not take memory. */
struct inner {
    struct world world, wanted[3];
    sfi_u32 rounds, steps;
    int runs;
};

static struct inner new_inner(sfi_u32 rounds, sfi_u32 steps) {
    struct inner it = { .world = new_world(rounds, ending_of(0)), .rounds = rounds, .steps = steps };
    for (int k = 0; k < 3; k++)
        it.wanted[k] = translated(rounds, ending_of(k), steps);
    return it;
}

static void free_inner(struct inner *it) {
    sfi_free_data(sandbox, 1, it->world.hart.data);
    for (int k = 0; k < 3; k++)
        free(it->wanted[k].hart.data);
}

/* Takes a turn by that code. At the end of a run the world is compared, and begins the next one. */
static void go_on_by(const struct sfi_code *own, struct inner *it) {
    it->world.hart.left = it->steps;
    it->world.how = sfi_native_turn(own, &it->world.hart, &it->world.at);
    if (it->world.how == SFI_NEXT)
        return;
    check(is_same(&it->world, &it->wanted[it->runs % 3]), "a handler's run");
    restart(&it->world, it->rounds, ending_of(++it->runs));
}

static void go_on(struct inner *it) {
    go_on_by(&code, it);
}

static void handle_with(int number, int flags, void (*handler)(int, siginfo_t *, void *)) {
    struct sigaction action = { .sa_flags = flags | SA_SIGINFO };
    action.sa_sigaction = handler;
    sigaction(number, &action, NULL);
}

/* ---- a signal at each instruction: the processor's trap flag */

static struct inner stepped;
static volatile sig_atomic_t instructions, is_stepping;

static void on_instruction(int number, siginfo_t *info, void *context) {
    greg_t *const flags = &((ucontext_t *)context)->uc_mcontext.gregs[REG_EFL];
    (void)number;
    (void)info;
    instructions++;
    *flags = is_stepping ? *flags | TRAP_FLAG : *flags & ~TRAP_FLAG;
    if (instructions % 5 == 0)
        go_on(&stepped);
}

static void test_each_instruction(void) {
    stepped = new_inner(20, 90);
    handle_with(SIGTRAP, 0, on_instruction);
    for (int k = 0; k < 3; k++) {
        struct world it = new_world(40, ending_of(k));
        is_stepping = 1;
        raise(SIGTRAP);
        run(&it, 400);
        is_stepping = 0;
        check(is_as_translated(&it, 40, ending_of(k), 400), "a run that is interrupted at each instruction");
        sfi_free_data(sandbox, 1, it.hart.data);
    }
    check(instructions > 3 * 40 * 15 && stepped.runs > 50, "there is a signal at each instruction");
    free_inner(&stepped);
}

/* ---- one within another, by codes of their own */

enum { DEEP = 3, DEEP_TICKS = 100 };
static struct sfi_code codes[DEPTH];
static struct inner nested[DEPTH];
static volatile sig_atomic_t depth, deep_ticks; /* the latter at depth DEEP or below it, up to DEEP_TICKS */

/* Takes a turn that other ticks may interrupt, by the code of its depth. Once enough were deep, none does, so that however fast ticks
   come the run below them goes on. */
static void on_nested_tick(int number) {
    (void)number;
    if (depth == DEPTH || deep_ticks >= DEEP_TICKS)
        return;
    const int own = depth++;
    if (depth >= DEEP)
        deep_ticks++;
    go_on_by(&codes[own], &nested[own]);
    depth--;
}

static void test_nested(void) {
    for (int k = 0; k < DEPTH; k++) {
        check(sfi_map_code(file, length, sandbox, 1, &codes[k]), "code is mapped once more");
        nested[k] = new_inner(2000, 30000);
    }
    int microseconds = 50; /* fewer, until a tick is that deep: a fast machine ends its turn before the next */
    for (int k = 0; k < 300 || (deep_ticks == 0 && k < 100000); k++) {
        if (k % 300 == 0)
            set_timer(on_nested_tick, SA_NODEFER, microseconds -= microseconds > 5 ? 5 : 0);
        try_run(ROUNDS, ending_of(k), 1000000, "a run below others");
    }
    set_timer(SIG_IGN, 0, 0);
    check(deep_ticks > 0, "ticks come within others");
    for (int k = 0; k < DEPTH; k++) {
        free_inner(&nested[k]);
        sfi_unmap_code(&codes[k], 1);
    }
}

/* ---- in each thread, beside forks and maps */

static _Thread_local struct inner *of_thread;
static atomic_int is_over, maps_done;

static void on_thread_signal(int number, siginfo_t *info, void *context) {
    (void)number;
    (void)info;
    (void)context;
    if (of_thread != NULL)
        go_on(of_thread);
}

static void *run_thread(void *number) {
    struct inner inner = new_inner(30, 150);
    of_thread = &inner;
    for (int k = (int)(uintptr_t)number; !is_over; k++)
        try_run(500, ending_of(k), 700, "a thread's run among signals");
    of_thread = NULL;
    free_inner(&inner);
    return NULL;
}

/* Starts threads that run until it is over. */
static void start(pthread_t threads[], void *(*begin)(void *), const pthread_attr_t *attributes) {
    is_over = 0;
    for (uintptr_t k = 0; k < MANY; k++)
        if (pthread_create(&threads[k], attributes, begin, (void *)k))
            abort();
}

static void join(pthread_t threads[]) {
    is_over = 1;
    for (int k = 0; k < MANY; k++)
        pthread_join(threads[k], NULL);
}

static void test_threads(void) {
    pthread_t threads[MANY];
    handle_with(SIGUSR1, SA_RESTART, on_thread_signal);
    start(threads, run_thread, NULL);
    for (int k = 0; k < 4000; k++) {
        pthread_kill(threads[k % MANY], SIGUSR1);
        usleep(50);
    }
    join(threads);
}

/* A child of a host of many threads has one; its runs are as before. */
static void test_fork_among_threads(void) {
    pthread_t threads[MANY];
    handle_with(SIGUSR1, SA_RESTART, on_thread_signal);
    start(threads, run_thread, NULL);
    for (int k = 0; k < 60; k++) {
        struct world it = new_world(ROUNDS, ending_of(k));
        take_turn(&it, 1000);
        pthread_kill(threads[k % MANY], SIGUSR1);
        const pid_t child = fork();
        if (child == 0)
            failures = 0;
        run(&it, 1000);
        check(is_as_translated(&it, ROUNDS, ending_of(k), 1000), "a run across a fork among threads");
        if (child == 0)
            _exit(failures != 0);
        end_child(child, "a child of a host of threads");
        sfi_free_data(sandbox, 1, it.hart.data);
    }
    join(threads);
}

static void *map_thread(void *number) {
    for (int k = (int)(uintptr_t)number; !is_over; k++) {
        struct sfi_code own;
        struct world it = new_world(100, ending_of(k));
        check(sfi_map_code(file, length, sandbox, 1, &own), "code is mapped in a thread");
        while (it.how == SFI_NEXT) {
            it.hart.left = 333;
            it.how = sfi_native_turn(&own, &it.hart, &it.at);
        }
        sfi_unmap_code(&own, 1);
        check(is_as_translated(&it, 100, ending_of(k), 333), "a run by code of its own");
        sfi_free_data(sandbox, 1, it.hart.data);
        maps_done++;
    }
    return NULL;
}

static void test_maps_among_threads(void) {
    pthread_t threads[MANY];
    start(threads, map_thread, NULL);
    while (maps_done < 4000)
        usleep(1000);
    join(threads);
}

/* ---- the first fault of a host whose threads begin at once */

static pthread_barrier_t barrier;

static void *first_thread(void *number) {
    pthread_barrier_wait(&barrier);
    struct world it = new_world(100, ending_of(1 + (int)(uintptr_t)number % 2));
    run(&it, 1000000);
    check(it.how == ((uintptr_t)number % 2 == 0 ? SFI_STORE : SFI_LOAD), "a thread's first trap");
    sfi_free_data(sandbox, 1, it.hart.data);
    return NULL;
}

/* In children, of which each handles its first fault. */
static void test_first(void) {
    for (int k = 0; k < 50; k++) {
        const pid_t child = fork();
        if (child == 0) {
            pthread_t threads[MANY];
            pthread_barrier_init(&barrier, NULL, MANY);
            start(threads, first_thread, NULL);
            join(threads);
            _exit(failures != 0);
        }
        end_child(child, "threads that begin at once");
    }
}

/* ---- other stacks */

static void on_other_stack(int number, siginfo_t *info, void *context) {
    stack_t now;
    (void)number;
    (void)info;
    (void)context;
    check(sigaltstack(NULL, &now) == 0 && now.ss_flags & SS_ONSTACK, "it is the alternate stack");
    try_endings("a run on the alternate stack");
}

/* Turns on the alternate stack, and faults that are handled there. */
static void *alternate_thread(void *unused) {
    const stack_t stack = { .ss_sp = malloc(STACK), .ss_size = STACK }, none = { .ss_flags = SS_DISABLE };
    if (stack.ss_sp == NULL || sigaltstack(&stack, NULL))
        abort();
    for (int k = 0; k < 20; k++) {
        raise(SIGUSR2);
        try_endings("a run whose faults have the alternate stack");
    }
    sigaltstack(&none, NULL);
    free(stack.ss_sp);
    return unused;
}

/* Turns on the smallest stack that a thread may have, with that of a fault's handler below them. */
static void *small_thread(void *number) {
    for (int k = (int)(uintptr_t)number; k < 100; k++) {
        struct world it = new_world(100, ending_of(k));
        run(&it, 333);
        check(it.how == (const int[]){ SFI_CALL, SFI_STORE, SFI_LOAD }[k % 3], "a run on a small stack");
        sfi_free_data(sandbox, 1, it.hart.data);
    }
    return NULL;
}

static void test_stacks(void) {
    pthread_t threads[MANY];
    pthread_attr_t attributes;
    handle_with(SIGUSR2, SA_ONSTACK, on_other_stack);
    start(threads, alternate_thread, NULL);
    join(threads);
    pthread_attr_init(&attributes);
    check(pthread_attr_setstacksize(&attributes, (size_t)sysconf(_SC_THREAD_STACK_MIN)) == 0, "the smallest stack");
    start(threads, small_thread, &attributes);
    join(threads);
}

/* ---- within the handling of a fault */

static sigjmp_buf back;
static uint8_t *nowhere;
static volatile sig_atomic_t faults;

/* Runs sandboxes that fault, and jumps to where the host goes on, which is in no turn. */
static void on_own_fault(int number, siginfo_t *info, void *context) {
    (void)number;
    (void)info;
    (void)context;
    faults++;
    try_endings("a run within the handling of a fault");
    siglongjmp(back, 1);
}

static void fault_once(void) {
    if (sigsetjmp(back, 1) == 0)
        *(volatile uint8_t *)nowhere = 1;
}

static void test_faults(void) {
    for (int k = 0; k < 20; k++) {
        fault_once();
        try_endings("a run after a fault of the host's own");
    }
    check(faults == 20, "faults of the host's own");
}

/* ---- what a thread has is kept */

static void test_kept(void) {
    sigset_t before, after;
    stack_t stack_before, stack_after;
    sigemptyset(&before);
    sigaddset(&before, SIGUSR2);
    pthread_sigmask(SIG_SETMASK, &before, NULL);
    sigaltstack(NULL, &stack_before);
    errno = EDOM;
    for (int k = 0; k < 3; k++)
        try_run(ROUNDS, ending_of(k), 1000, "a run of a thread with a mask");
    check(errno == EDOM, "errno is kept");
    pthread_sigmask(SIG_SETMASK, NULL, &after);
    sigaltstack(NULL, &stack_after);
    for (int number = 1; number < SIGRTMIN; number++)
        check(sigismember(&before, number) == sigismember(&after, number), "the mask is kept");
    check(stack_before.ss_sp == stack_after.ss_sp && stack_before.ss_flags == stack_after.ss_flags, "the alternate stack is kept");
}

/* ---- two copies */

static struct inner within;

static void on_tick(int number) {
    (void)number;
    go_on(&within);
}

/* Each copy has its own handler, and hands on to the one before it what is the other's: in turns of one in the midst of the other's. */
static void test_copies(void) {
    within = new_inner(40, 200);
    set_timer(on_tick, 0, 500);
    for (int k = 0; k < 400 || (within.runs <= 10 && k < 100000); k++) {
        check(is_other_right(file, length, ROUNDS, ending_of(k)), "a run by another copy");
        try_run(ROUNDS, ending_of(k + 1), 1000000, "a run beside another copy");
    }
    set_timer(SIG_IGN, 0, 0);
    check(within.runs > 10, "ticks in the midst of turns");
    free_inner(&within);
}

/* ---- */

static const struct test {
    const char *name;
    void (*run)(void);
    int has_handler, handles_first;  /* of SIGSEGV before code is mapped; whether faults are handled from the beginning */
} tests[] = {
    { "each-instruction", test_each_instruction, 0, 1 }, { "nested", test_nested, 0, 1 }, { "thread-signals", test_threads, 0, 1 },
    { "thread-forks", test_fork_among_threads, 0, 1 }, { "thread-maps", test_maps_among_threads, 0, 1 }, { "first", test_first, 0, 0 },
    { "stacks", test_stacks, 0, 1 }, { "faults", test_faults, 1, 1 }, { "kept", test_kept, 0, 1 }, { "copies", test_copies, 0, 1 },
};

int main(int count, char **words) {
    for (size_t k = 0; count == 3 && k < sizeof tests / sizeof *tests; k++) {
        if (strcmp(words[2], tests[k].name) != 0)
            continue;
        nowhere = mmap(NULL, SFI_ZONE, PROT_NONE, MAP_PRIVATE | MAP_ANONYMOUS, -1, 0);
        if (tests[k].has_handler)
            handle_with(SIGSEGV, SA_NODEFER, on_own_fault);
        if (!read_file(words[1]) || !sfi_map_code(file, length, sandbox, 1, &code) || (tests[k].handles_first && sfi_handle_faults()))
            return 2;
        tests[k].run();
        return failures != 0;
    }
    return 3;
}
