/*
 * Runs the cases of crates/x86_trial on the machine's own processor, and compares what it does with what is expected. The
 * script processor.py compiles it, and says how it is called.
 *
 * A case runs between two signals. The handler of the first, which is raised, leaves by a frame with the case's registers and
 * flags, so that the kernel loads them and the processor goes on at the instruction. It stops there, or at the next
 * instruction's address, where every byte is a `hlt`, or nothing is mapped. So a second signal follows, whose frame has the
 * registers, flags and address after the instruction.
 */
#define _GNU_SOURCE
#include <inttypes.h>
#include <signal.h>
#include <stdbool.h>
#include <stdint.h>
#include <stdio.h>
#include <stdlib.h>
#include <string.h>
#include <sys/mman.h>
#include <ucontext.h>
#include <unistd.h>

enum { PAGE = 4096, HLT = 0xF4, FORMS = 21, OPERATIONS = 180, SHOWN = 3, SECONDS = 600 };
enum stop { DONE, FAULT, DIVIDE_ERROR, UNKNOWN_FLAG };
enum form { MOV_STORE_BYTE = 2, MOVSXD = 6, ALU = 7, SHIFT_IMM = 11, DIVIDE = 14, SETCC = 16, JCC = 17 };
#define UNKNOWN 2
#define RIP 16 /* beside the registers, by number */

/* As in crates/x86_trial/src/case.rt. */
struct x86_trial_case {
    uint64_t registers[16], expected_registers[16], expected_next;
    uint8_t flags[4], expected_flags[4];
    uint8_t code[16], length, form, operation, stop;
};
bool x86_trial_case(uint64_t seed, uint64_t code, uint64_t data, uint8_t *memory, size_t memory_length, uint8_t *expected_memory,
                    size_t expected_length, struct x86_trial_case *trial);

/* Code lies low, high, and where nothing else is in the reach of a jump; memory has nothing beside it. None of them is where
 * the random addresses at powers of two are. */
static const uint64_t CODE[] = {0x12000, 0x23456789A000, 0x7FFFFFFFE000};
static const uint64_t DATA = 0x3456789AB000;
enum { PLACES = sizeof CODE / sizeof CODE[0] };

static const int GREGS[] = {REG_RAX, REG_RCX, REG_RDX, REG_RBX, REG_RSP, REG_RBP, REG_RSI, REG_RDI, REG_R8,
                            REG_R9,  REG_R10, REG_R11, REG_R12, REG_R13, REG_R14, REG_R15, REG_RIP};
static const unsigned FLAG_BITS[] = {0, 6, 7, 11}; /* carry, zero, sign, overflow */
enum { PARITY_AND_AUXILIARY = 1 << 2 | 1 << 4 };

/* ---- One instruction on the processor. */

struct state {
    uint64_t registers[17]; /* the last is rip */
    uint64_t flags;
    int signal; /* by which the instruction, or what came after it, stopped */
};

static struct state now;
static gregset_t caller;
static volatile sig_atomic_t is_running;

static void on_signal(int signal, siginfo_t *info, void *context) {
    (void)info;
    greg_t *frame = ((ucontext_t *)context)->uc_mcontext.gregs;
    if (!is_running && signal != SIGUSR1) /* a fault of this program */
        _exit(3);
    if (is_running) {
        for (int k = 0; k < 17; k++)
            now.registers[k] = (uint64_t)frame[GREGS[k]];
        now.flags = (uint64_t)frame[REG_EFL];
        now.signal = signal;
        memcpy(frame, caller, sizeof caller);
    } else {
        memcpy(caller, frame, sizeof caller);
        for (int k = 0; k < 17; k++)
            frame[GREGS[k]] = (greg_t)now.registers[k];
        frame[REG_EFL] = (greg_t)now.flags;
    }
    is_running = !is_running;
}

static void catch_signals(void) {
    static const int SIGNALS[] = {SIGUSR1, SIGSEGV, SIGBUS, SIGFPE, SIGILL, SIGTRAP};
    static uint8_t stack[1 << 16];
    struct sigaction action = {.sa_sigaction = on_signal, .sa_flags = SA_SIGINFO | SA_ONSTACK};
    sigfillset(&action.sa_mask);
    sigaltstack(&(stack_t){.ss_sp = stack, .ss_size = sizeof stack}, NULL);
    for (size_t k = 0; k < sizeof SIGNALS / sizeof SIGNALS[0]; k++)
        sigaction(SIGNALS[k], &action, NULL);
}

static void *map_page(uint64_t at, int protection) {
    void *page = mmap((void *)at, PAGE, protection, MAP_PRIVATE | MAP_ANONYMOUS | MAP_FIXED_NOREPLACE, -1, 0);
    if (page != (void *)at) {
        perror("fuzz: no page");
        exit(2);
    }
    return page;
}

/* ---- Random numbers, as those of SplitMix64. */

static uint64_t random_word(uint64_t *state) {
    uint64_t z = *state += 0x9E3779B97F4A7C15;
    z = (z ^ z >> 30) * 0xBF58476D1CE4E5B9;
    z = (z ^ z >> 27) * 0x94D049BB133111EB;
    return z ^ z >> 31;
}

/* ---- A case. */

struct trial {
    struct x86_trial_case c;
    uint64_t start, after;
    uint64_t flags; /* before it, with a random bit for a flag that isn't known */
    uint8_t expected_memory[PAGE];
};

/* Mistakes in what is expected, each as of a definition that errs. */
static const char *const PLANTS[] = {"carry", "upper-half", "sign", "condition", "wide-store", "shift-count", "quotient", "set-byte"};
enum plant { CARRY, UPPER_HALF, SIGN, CONDITION, WIDE_STORE, SHIFT_COUNT, QUOTIENT, SET_BYTE, NO_PLANT };

/* Of each register that the instruction changes, these bits of the expected value stay, and these of the old one come back. */
static void change_results(struct x86_trial_case *c, uint64_t kept_of_value, uint64_t kept_of_old) {
    for (int k = 0; k < 16; k++)
        if (c->expected_registers[k] != c->registers[k])
            c->expected_registers[k] = (c->expected_registers[k] & kept_of_value) | (c->registers[k] & kept_of_old);
}

/* The byte behind the first that a store changes becomes 0. */
static void widen_store(struct trial *t, const uint8_t *memory) {
    for (int k = 0; k + 1 < PAGE; k++)
        if (memory[k] != t->expected_memory[k]) {
            t->expected_memory[k + 1] = 0;
            return;
        }
}

static void plant_mistake(struct trial *t, enum plant plant, const uint8_t *memory) {
    const uint64_t low = 0xFFFFFFFF;
    struct x86_trial_case *c = &t->c;
    int32_t distance;
    if (plant == CARRY && c->form == ALU && c->expected_flags[0] != UNKNOWN) /* of a sum in which nothing is carried */
        c->expected_flags[0] = 0;
    if (plant == UPPER_HALF && c->form == ALU && c->operation % 2 == 0) /* a result of 32 bits leaves it */
        change_results(c, low, ~low);
    if (plant == SIGN && c->form == MOVSXD) /* is left out */
        change_results(c, low, 0);
    if (plant == CONDITION && c->form == JCC && c->stop == DONE) { /* is inverted */
        memcpy(&distance, c->code + c->length - 4, 4);
        c->expected_next = c->expected_next == t->after ? t->after + (uint64_t)(int64_t)distance : t->after;
    }
    if (plant == WIDE_STORE && c->form == MOV_STORE_BYTE) /* of a byte writes two */
        widen_store(t, memory);
    if (plant == SHIFT_COUNT && c->form == SHIFT_IMM && c->operation % 2 == 0 && c->code[c->length - 1] & 32) /* modulo 64 */
        change_results(c, 0, 0);
    if (plant == QUOTIENT && c->form == DIVIDE && c->stop == DIVIDE_ERROR) /* that doesn't fit loses its high bits */
        c->stop = DONE, c->expected_next = t->after;
    if (plant == SET_BYTE && c->form == SETCC) /* clears the rest of the register */
        change_results(c, 0xFF, 0);
}

/* Makes the case of a seed, in the pages. */
static void make_case(struct trial *t, uint64_t seed, uint8_t *memory) {
    uint64_t random = seed;
    t->start = CODE[random_word(&random) % PLACES] + random_word(&random) % (PAGE - 15);
    for (int k = 0; k < PAGE; k += 8)
        memcpy(memory + k, &(uint64_t){random_word(&random)}, 8);
    if (!x86_trial_case(seed, t->start, DATA, memory, PAGE, t->expected_memory, PAGE, &t->c)) {
        fputs("fuzz: no memory\n", stderr);
        exit(2);
    }
    t->after = t->start + t->c.length;
    t->flags = 1 << 1 | 1 << 9 | (random_word(&random) & PARITY_AND_AUXILIARY); /* interrupts stay on */
    for (int k = 0; k < 4; k++) {
        bool flag = t->c.flags[k] == UNKNOWN ? random_word(&random) & 1 : t->c.flags[k];
        t->flags |= (uint64_t)flag << FLAG_BITS[k];
    }
}

/* An instruction that jumps into itself doesn't stop as others do. */
static bool can_run(const struct trial *t) {
    const uint64_t next = t->c.expected_next;
    return t->c.stop != UNKNOWN_FLAG && !(t->c.stop == DONE && next >= t->start && next < t->after);
}

static void run_case(const struct trial *t) {
    uint8_t *code = (uint8_t *)t->start;
    memcpy(now.registers, t->c.registers, sizeof t->c.registers);
    now.registers[RIP] = t->start;
    now.flags = t->flags;
    memcpy(code, t->c.code, t->c.length);
    raise(SIGUSR1);
    memset(code, HLT, t->c.length);
}

/* The definitions know addresses of 48 bits, and fault at a jump to another. A processor that has them of 57, by LA57, does
   it; and one that hasn't may fault behind it. */
static bool is_wide_jump(void) {
    const uint64_t to = now.registers[RIP], end = 1ULL << 47;
    return to >= end && to < -end;
}

/* What differs, or NULL. */
static const char *difference(const struct trial *t, const uint8_t *memory) {
    const struct x86_trial_case *c = &t->c;
    const bool is_done = now.registers[RIP] != t->start;
    if (is_done && c->stop == FAULT && is_wide_jump())
        return NULL;
    if (is_done != (c->stop == DONE))
        return is_done ? "it was done" : "it stopped";
    if (!is_done && (now.signal == SIGFPE) != (c->stop == DIVIDE_ERROR))
        return "another stop";
    if (is_done && now.registers[RIP] != c->expected_next)
        return "rip";
    if (memcmp(now.registers, c->expected_registers, sizeof c->expected_registers) != 0)
        return "registers";
    for (int k = 0; k < 4; k++)
        if (c->expected_flags[k] != UNKNOWN && (now.flags >> FLAG_BITS[k] & 1) != c->expected_flags[k])
            return "flags";
    return memcmp(memory, t->expected_memory, PAGE) != 0 ? "memory" : NULL;
}

static void show(const char *what, uint64_t seed, const struct trial *t, const uint8_t *memory) {
    const struct x86_trial_case *c = &t->c;
    printf("DIFFERS %s, case %" PRIu64 ", form %u, operation %u\n  code at %" PRIx64 ":", what, seed, c->form, c->operation, t->start);
    for (int k = 0; k < c->length; k++)
        printf(" %02x", c->code[k]);
    printf("\n  stop wanted %u, found signal %d at %" PRIx64 ", next wanted %" PRIx64 "\n", c->stop, now.signal, now.registers[RIP],
           c->expected_next);
    for (int k = 0; k < 16; k++)
        printf("  r%d before %" PRIx64 " wanted %" PRIx64 " found %" PRIx64 "\n", k, c->registers[k], c->expected_registers[k],
               now.registers[k]);
    printf("  flags before %" PRIx64 " wanted", t->flags);
    for (int k = 0; k < 4; k++)
        printf(" %u", c->expected_flags[k]);
    printf(" of bits 0, 6, 7, 11, found %" PRIx64 "\n", now.flags);
    for (int k = 0; k < PAGE; k++)
        if (memory[k] != t->expected_memory[k])
            printf("  memory %" PRIx64 " wanted %02x found %02x\n", DATA + (uint64_t)k, t->expected_memory[k], memory[k]);
}

/* ---- All cases. */

struct count {
    uint64_t compared, differ, stopped;
};

static enum plant plant_of(const char *name) {
    enum plant plant = 0;
    while (plant < NO_PLANT && strcmp(name, PLANTS[plant]) != 0)
        plant++;
    return plant;
}

int main(int argc, char **argv) {
    static struct count counts[FORMS][OPERATIONS];
    static struct trial t;
    if (argc < 3) {
        for (enum plant plant = 0; plant < NO_PLANT; plant++)
            puts(PLANTS[plant]);
        return 0;
    }
    const uint64_t first = strtoull(argv[1], NULL, 10), end = first + strtoull(argv[2], NULL, 10);
    const enum plant plant = argc > 3 ? plant_of(argv[3]) : NO_PLANT;
    uint8_t *memory = map_page(DATA, PROT_READ | PROT_WRITE);
    for (int k = 0; k < PLACES; k++)
        memset(map_page(CODE[k], PROT_READ | PROT_WRITE | PROT_EXEC), HLT, PAGE);
    catch_signals();
    alarm(SECONDS);
    int shown = 0;
    for (uint64_t seed = first; seed < end; seed++) {
        make_case(&t, seed, memory);
        plant_mistake(&t, plant, memory);
        if (!can_run(&t))
            continue;
        run_case(&t);
        const char *what = difference(&t, memory);
        struct count *count = &counts[t.c.form][t.c.operation];
        count->compared++;
        count->stopped += t.c.stop != DONE;
        count->differ += what != NULL;
        if (what != NULL && shown++ < SHOWN)
            show(what, seed, &t, memory);
    }
    for (int form = 0; form < FORMS; form++)
        for (int k = 0; k < OPERATIONS; k++)
            printf("count %d %d %" PRIu64 " %" PRIu64 " %" PRIu64 "\n", form, k, counts[form][k].compared, counts[form][k].differ,
                   counts[form][k].stopped);
    return 0;
}
