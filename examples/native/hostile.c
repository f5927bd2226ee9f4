/* A host that makes use of native code in each way that might break it: threads, signals in the midst of turns, handlers before and
   after, forks, many worlds, maps that fail, files that aren't whole. States are compared with those that the translation's own
   functions make (sfi_turn), of the same sandbox: hostile.s.

       hostile FILE.native TEST    prints what failed; status 0: nothing, 1: something, 3: no such test */
#define _GNU_SOURCE
#include <fcntl.h>
#include <pthread.h>
#include <setjmp.h>
#include <signal.h>
#include <stdio.h>
#include <stdlib.h>
#include <sys/mman.h>
#include <sys/time.h>
#include <sys/wait.h>
#include <ucontext.h>
#include <unistd.h>

static int maps_left = -1; /* calls of mmap and mprotect that succeed before one fails; -1: all do */

static int is_refused(void) {
    return maps_left == 0 || (maps_left > 0 && maps_left-- == 0);
}

static void *tried_mmap(void *at, size_t size, int protection, int flags, int file, off_t offset) {
    return is_refused() ? MAP_FAILED : mmap(at, size, protection, flags, file, offset);
}

static int tried_mprotect(void *at, size_t size, int protection) {
    return is_refused() ? -1 : mprotect(at, size, protection);
}

#define mmap tried_mmap
#define mprotect tried_mprotect
#include "hostile.h"
#undef mmap
#undef mprotect

/* ---- steps, threads, worlds */

static void test_steps(void) {
    static const sfi_u32 left[] = { 1, 64, 65, 66, 127, 5000, 0x7ffffffe, 0x7fffffff, 0x80000000, 0x80000001, 0x80000040, 0x80000041, 0xffffffff };
    struct world none = new_world(ROUNDS, BY_EXIT);
    take_turn(&none, 0);
    check(none.how == SFI_NEXT && none.hart.left == 0 && none.hart.pc == sandbox->start, "a turn without a step");
    sfi_free_data(sandbox, 1, none.hart.data);
    for (size_t k = 0; k < sizeof left / sizeof *left; k++)
        for (sfi_u32 rounds = 0; rounds < 40; rounds += 13)
            try_run(rounds, rounds % 2 ? ABOVE : BELOW, left[k], "a turn of that many steps");
}

static void *run_thread(void *number) {
    for (sfi_u32 k = 0; k < 50; k++)
        try_run(100 * k + (sfi_u32)(uintptr_t)number, k % 3 == 0 ? BY_EXIT : k % 3 == 1 ? ABOVE : BELOW, 700, "a thread's run");
    return NULL;
}

static void test_threads(void) {
    pthread_t threads[THREADS];
    for (uintptr_t k = 0; k < THREADS; k++)
        if (pthread_create(&threads[k], NULL, run_thread, (void *)k))
            abort();
    for (int k = 0; k < THREADS; k++)
        pthread_join(threads[k], NULL);
}

static void test_worlds(void) {
    static struct world worlds[WORLDS];
    for (int k = 0; k < WORLDS; k++)
        worlds[k] = new_world(100 + k % 50, k % 3 - 1);
    for (int is_over = 0; !is_over;) {
        is_over = 1;
        for (int k = 0; k < WORLDS; k++)
            if (worlds[k].how == SFI_NEXT) {
                take_turn(&worlds[k], 333);
                is_over = 0;
            }
    }
    for (int k = 0; k < WORLDS; k++) {
        check(is_as_translated(&worlds[k], 100 + k % 50, k % 3 - 1, 333), "one of many worlds");
        sfi_free_data(sandbox, 1, worlds[k].hart.data);
    }
}

/* ---- signals in the midst of turns, forks */

static struct world inner; /* of the timer's handler */
static volatile sig_atomic_t ticks, forks;

/* Takes turns of another world, to its trap and over again. */
static void on_tick(int number) {
    (void)number;
    ticks++;
    if (inner.how != SFI_NEXT)
        restart(&inner, 40, ticks % 2 ? ABOVE : BELOW);
    take_turn(&inner, 300);
}

/* Forks, and has the child take the turns of another world, and end. */
static void on_forking_tick(int number) {
    on_tick(number);
    if (++forks > 20)
        return;
    const pid_t child = fork();
    if (child == 0) {
        restart(&inner, 50, ABOVE);
        run(&inner, 100);
        _exit(inner.how == SFI_STORE ? 0 : 1);
    }
    end_child(child, "a child of a handler");
}

/* Runs while a timer of 1 kHz ticks, until it has done so often enough. */
static void try_ticks(void (*handler)(int), int least) {
    inner = new_world(40, ABOVE);
    ticks = forks = 0;
    set_timer(handler, 0, 1000);
    while (ticks < least)
        try_endings("a run among a timer's ticks");
    set_timer(SIG_IGN, 0, 0);
    sfi_free_data(sandbox, 1, inner.hart.data);
}

static void test_timer(void) {
    try_ticks(on_tick, 300);
}

static void test_fork(void) {
    struct world it = new_world(ROUNDS, ABOVE);
    take_turn(&it, 1000);
    const pid_t child = fork();
    if (child == 0)
        failures = 0;
    run(&it, 1000);
    check(is_as_translated(&it, ROUNDS, ABOVE, 1000), "a run across a fork");
    if (child == 0)
        _exit(failures != 0);
    end_child(child, "a child between turns");
    sfi_free_data(sandbox, 1, it.hart.data);
    try_ticks(on_forking_tick, 30);
}

/* ---- handlers of the host's own */

static sigjmp_buf back;
static uint8_t *nowhere, *hidden, *lost; /* pages that can't be accessed; the last two are given back by the handlers here */
static volatile sig_atomic_t faults, is_masked, is_in_code, later_faults;

static void unhide(uint8_t *address, uint8_t **page) {
    if (*page == NULL || address < *page || address >= *page + SFI_ZONE)
        siglongjmp(back, 1);
    mmap(*page, SFI_ZONE, PROT_READ | PROT_WRITE, MAP_PRIVATE | MAP_ANONYMOUS | MAP_FIXED, -1, 0);
    *page = NULL;
}

static void own_handler(int number, siginfo_t *info, void *context) {
    const uintptr_t place = (uintptr_t)((ucontext_t *)context)->uc_mcontext.gregs[REG_RIP] - (uintptr_t)code.text;
    sigset_t mask;
    is_in_code = place < code.exit;
    sigprocmask(SIG_BLOCK, NULL, &mask);
    is_masked = sigismember(&mask, SIGUSR1) && sigismember(&mask, number) && !sigismember(&mask, SIGUSR2);
    faults++;
    if (info->si_code > 0)
        unhide(info->si_addr, number == SIGBUS ? &lost : &hidden);
}

static void handle(int number, int flags) {
    struct sigaction action = { .sa_flags = flags | SA_SIGINFO };
    action.sa_sigaction = own_handler;
    sigaddset(&action.sa_mask, SIGUSR1);
    sigaction(number, &action, NULL);
}

static void write_byte(uint8_t *at) {
    *(volatile uint8_t *)at = 1;
}

/* A fault of the host's own, at that address. */
static void fault_at(uint8_t *address) {
    const int before = faults;
    if (sigsetjmp(back, 1) == 0)
        write_byte(address);
    check(faults == before + 1 && is_masked, "a fault of the host's own");
}

/* A fault in the data, not in a zone, is the host's, also where a sandbox accesses them. */
static void try_hidden_data(struct world *it, uint8_t **page, int number) {
    const int before = faults;
    const int empty = number == SIGBUS ? memfd_create("empty", 0) : -1;
    restart(it, ROUNDS, ABOVE);
    *page = it->hart.data + SFI_ZONE;
    if (mmap(*page, SFI_ZONE, empty < 0 ? PROT_NONE : PROT_READ | PROT_WRITE, MAP_FIXED | (empty < 0 ? MAP_PRIVATE | MAP_ANONYMOUS : MAP_SHARED),
             empty, 0) == MAP_FAILED)
        abort();
    run(it, 100000);
    check(faults == before + 1 && is_masked && is_in_code, "a fault within the data");
    check(is_as_translated(it, ROUNDS, ABOVE, 100000), "a run whose data were hidden");
    if (empty >= 0)
        close(empty);
}

static void test_handler_before(void) {
    struct world it = new_world(ROUNDS, ABOVE);
    try_endings("a run beside a handler");
    fault_at(nowhere);
    fault_at(it.hart.data - 8);
    fault_at(code.text);
    fault_at(code.table);
    raise(SIGSEGV);
    check(faults == 5 && is_masked, "a signal that is sent");
    try_hidden_data(&it, &hidden, SIGSEGV);
    try_hidden_data(&it, &lost, SIGBUS);
    sfi_free_data(sandbox, 1, it.hart.data);
    try_endings("a run after faults");
}

static struct sigaction before_later;

/* Hands on what isn't its own, as sfi_native_guards.h asks of a handler that is set later. */
static void later_handler(int number, siginfo_t *info, void *context) {
    later_faults++;
    before_later.sa_sigaction(number, info, context);
}

static void test_handler_after(void) {
    struct sigaction action = { .sa_flags = SA_SIGINFO | SA_NODEFER };
    action.sa_sigaction = later_handler;
    sigaction(SIGSEGV, &action, &before_later);
    check(sfi_handle_faults() == 0, "faults are handled once");
    try_endings("a run below a later handler");
    check(later_faults == 2, "a later handler sees what it hands on");
    fault_at(nowhere);
}

/* How a child ends that faults twice, or is sent the signal: 0, or the signal by which it ended. */
static int fate(int is_sent) {
    int status = -1;
    const pid_t child = fork();
    if (child == 0) {
        try_endings("a run before the end");
        for (int k = 0; k < 2; k++) {
            if (sigsetjmp(back, 1) == 0)
                is_sent ? (void)raise(SIGSEGV) : write_byte(nowhere);
            try_endings("a run after a signal");
        }
        _exit(failures != 0);
    }
    return waitpid(child, &status, 0) == child && WIFSIGNALED(status) ? WTERMSIG(status) : status;
}

static void test_fates(void) {
    check(fate(0) == SIGSEGV, "a fault that nothing handles ends the host");
    check(fate(1) == SIGSEGV, "a signal that nothing handles ends the host");
}

static void test_ignored(void) {
    check(fate(0) == SIGSEGV, "a fault can't be ignored");
    check(fate(1) == 0, "a signal that is ignored does nothing");
}

static void test_handler_once(void) {
    check(fate(0) == SIGSEGV, "a handler for one fault gets one");
}

/* ---- accesses anywhere */

enum { NEAR = 1020 }; /* bytes beside the data that a data register may be */
static const int bases[] = { 2, 3, 4, 29, 26, 31 }; /* the data registers of single masks; the first BASES are those of others */
enum { NAMED = 3, BASES = 4 }; /* a source can name so many of them */

static int base_count(void) {
    return sandbox->single ? (int)(sizeof bases / sizeof *bases) : BASES;
}

/* Numbers at which something begins or ends: each power of two, and these places, with their neighbours. */
static size_t edges(sfi_u32 found[], size_t room) {
    const sfi_u32 places[] = { 0, sandbox->data_size, sandbox->data_size + SFI_ZONE, sandbox->data - SFI_ZONE, sandbox->data - NEAR, sandbox->data,
        sandbox->data + sandbox->data_size, sandbox->data + sandbox->data_size + NEAR, sandbox->data + sandbox->data_size + SFI_ZONE, sandbox->code };
    size_t count = 0;
    for (sfi_u32 k = 0; k < 32 + sizeof places / sizeof *places; k++)
        for (sfi_u32 beside = 0; beside < 14 && count < room; beside++)
            found[count++] = (k < 32 ? 1u << k : places[k - 32]) + (const sfi_u32[]){ 0, 1, 2, 3, 4, 5, -1u, -2u, -3u, -4u, -2047u, -2048u, 2047, 2048 }[beside];
    return count;
}

/* Whether native code may have that number in a data register: any where masks are single, else what its type has. */
static int may_hold(sfi_u32 number) {
    return sandbox->single || number - (sandbox->data - NEAR) < sandbox->data_size + 2 * NEAR;
}

/* Runs to accesses by each data register, of which one has that number. Whether it trapped. */
static int try_plain(int base, sfi_u32 number) {
    struct world it = new_world(0, PLAIN), other = translated(0, BY_EXIT, 1000000);
    restart(&other, 0, PLAIN);
    for (int k = NAMED; k < base_count(); k++) /* by which the accesses reach to both sides */
        it.hart.x[bases[k]] = other.hart.x[bases[k]] = sandbox->data + sandbox->data_size / 2;
    it.hart.x[base] = other.hart.x[base] = number;
    take_turn(&it, 1000000);
    other.hart.left = 1000000;
    other.how = sfi_turn(sandbox, &other.hart, &other.at);
    check(is_same(&it, &other), "an access by any number");
    sfi_free_data(sandbox, 1, it.hart.data);
    free(other.hart.data);
    return it.how == SFI_LOAD || it.how == SFI_STORE;
}

/* Native code accesses whatever a data register may hold: what isn't in the data traps, each time by a fault. */
static void test_anywhere(void) {
    static sfi_u32 numbers[1000];
    const size_t count = edges(numbers, sizeof numbers / sizeof *numbers);
    struct sigaction action = { .sa_flags = SA_SIGINFO | SA_NODEFER };
    int traps = 0, runs = 0;
    action.sa_sigaction = later_handler;
    sigaction(SIGSEGV, &action, &before_later);
    for (int base = 0; base < base_count(); base++)
        for (size_t k = 0; k < count; k++)
            if (may_hold(numbers[k])) {
                traps += try_plain(bases[base], numbers[k]);
                runs++;
            }
    check(later_faults == traps && traps < runs && traps > (sandbox->single ? runs / 2 : 0), "traps are faults");
}

/* ---- maps and files */

/* How many pages are mapped. */
static long mapped_pages(void) {
    char text[20] = "";
    const int from = open("/proc/self/statm", O_RDONLY);
    check(read(from, text, sizeof text - 1) > 0, "/proc/self/statm");
    close(from);
    return atol(text);
}

static void test_maps(void) {
    struct sfi_code other;
    int is_done = 0, tries = 0;
    const long before = mapped_pages();
    for (; !is_done; tries++) {
        maps_left = tries;
        uint8_t *const data = sfi_new_data(sandbox, 1);
        is_done = data != NULL && sfi_map_code(file, length, sandbox, 1, &other);
        maps_left = -1;
        if (is_done)
            sfi_unmap_code(&other, 1);
        sfi_free_data(sandbox, 1, data);
        check(mapped_pages() == before, "what is mapped is given back");
    }
    check(tries == 6, "each call of mmap and mprotect may fail");
    for (int k = 0; k < WORLDS; k++) {
        check(sfi_map_code(file, length, sandbox, 1, &other), "code is mapped anew");
        sfi_unmap_code(&other, 1);
    }
    check(mapped_pages() == before, "code that is unmapped is gone");
}

/* A file with any byte changed, or cut short anywhere, is refused. */
static void test_files(void) {
    struct sfi_code other;
    for (size_t k = 0; k < length; k++) {
        uint8_t *const cut = malloc(k + 1);
        memcpy(cut, file, k);
        check(!sfi_map_code(cut, k, sandbox, 1, &other), "a file that is cut short");
        free(cut);
        file[k] ^= (uint8_t)(1 << k % 8);
        check(!sfi_map_code(file, length, sandbox, 1, &other), "a file with a bit changed");
        file[k] ^= (uint8_t)(1 << k % 8);
    }
}

/* ---- */

enum before { DEFAULT, IGNORED, HANDLED, HANDLED_ONCE }; /* what becomes of SIGSEGV and SIGBUS before code is mapped */

static const struct test {
    const char *name;
    void (*run)(void);
    enum before before;
} tests[] = {
    { "steps", test_steps, DEFAULT }, { "threads", test_threads, DEFAULT }, { "worlds", test_worlds, DEFAULT },
    { "anywhere", test_anywhere, DEFAULT }, { "timer", test_timer, DEFAULT }, { "fork", test_fork, DEFAULT }, { "files", test_files, DEFAULT }, { "maps", test_maps, DEFAULT },
    { "fates", test_fates, DEFAULT }, { "ignored", test_ignored, IGNORED }, { "handler-once", test_handler_once, HANDLED_ONCE },
    { "handler-before", test_handler_before, HANDLED }, { "handler-after", test_handler_after, HANDLED },
};

static void prepare(enum before before) {
    nowhere = mmap(NULL, SFI_ZONE, PROT_NONE, MAP_PRIVATE | MAP_ANONYMOUS, -1, 0);
    if (before >= HANDLED) {
        handle(SIGSEGV, before == HANDLED ? 0 : (int)SA_RESETHAND);
        handle(SIGBUS, before == HANDLED ? 0 : (int)SA_RESETHAND);
    } else {
        signal(SIGSEGV, before == IGNORED ? SIG_IGN : SIG_DFL);
    }
}

int main(int count, char **words) {
    for (size_t k = 0; count == 3 && k < sizeof tests / sizeof *tests; k++) {
        if (strcmp(words[2], tests[k].name) != 0)
            continue;
        prepare(tests[k].before);
        if (!read_file(words[1]) || !sfi_map_code(file, length, sandbox, 1, &code) || sfi_handle_faults())
            return 2;
        tests[k].run();
        return failures != 0;
    }
    return 3;
}
