/* What random programs have in common: their data, and functions that take a pointer to a local, a count of arguments
   or a structure, and that go back over several calls at once. */
#include <stdarg.h>

#include "gates.h"
#include "numbers.h"

#define APART static __attribute__((noinline))
#define JOBS 300 /* more than 2 KB */

struct node { unsigned char small; short middle; unsigned large; struct node *next; };
struct job { unsigned kind, size, from, to, *at; unsigned char *tail; struct job *next; };
struct pair { unsigned a, b; };
struct large { unsigned items[6]; };
union view { unsigned word; unsigned short halves[2]; unsigned char bytes[4]; };

static unsigned char bytes[32];
static short halves[16];
static unsigned words[64];
static unsigned long long wide[8];
static struct node nodes[8];
static struct job jobs[JOBS];
static union view views[16];
static unsigned total, thrown;
static int turns;

APART unsigned looked(volatile struct job *job, unsigned i) {
    return job->at[i & 3] * 3 + job->tail[i & 7] + job->kind - job->size;
}

APART unsigned added(unsigned count, ...) {
    va_list rest;
    unsigned sum = 0;
    va_start(rest, count);
    while (count--) {
        sum = sum * 5 + va_arg(rest, unsigned);
        sum += (unsigned)(va_arg(rest, unsigned long long) >> 9);
    }
    va_end(rest);
    return sum;
}

static struct pair paired(unsigned a, unsigned b) { return (struct pair){a ^ b, a - b}; }

APART struct large spread(unsigned a, struct pair pair) {
    struct large large;
    for (unsigned i = 0; i < 6; i++) large.items[i] = a * i + (i & 1 ? pair.a : pair.b);
    return large;
}

/* KEEP() answers 0, and once more another number after LEAP(). */
#if !defined(__riscv)
#include <setjmp.h>
static jmp_buf kept;
#define KEEP() setjmp(kept)
#define LEAP() longjmp(kept, 1)
#elif defined(BUILT_IN) && !defined(__clang__) /* clang has them for other machines alone */
static void *kept[5];
#define KEEP() __builtin_setjmp(kept)
#define LEAP() __builtin_longjmp(kept, 1)
#else
unsigned kept[10];
int keep(void) __attribute__((returns_twice));
void leap(void) __attribute__((noreturn));
asm(".text\n"
    "keep: la t0, kept\n sw ra, 0(t0)\n sw sp, 4(t0)\n sw s0, 8(t0)\n sw s1, 12(t0)\n sw s2, 16(t0)\n"
    " sw s3, 20(t0)\n sw s4, 24(t0)\n sw s5, 28(t0)\n sw s6, 32(t0)\n sw s7, 36(t0)\n li a0, 0\n ret\n"
    "leap: la t0, kept\n lw ra, 0(t0)\n lw sp, 4(t0)\n lw s0, 8(t0)\n lw s1, 12(t0)\n lw s2, 16(t0)\n"
    " lw s3, 20(t0)\n lw s4, 24(t0)\n lw s5, 28(t0)\n lw s6, 32(t0)\n lw s7, 36(t0)\n li a0, 1\n ret\n");
#define KEEP() keep()
#define LEAP() leap()
#endif

static void begin(void) {
    for (unsigned i = 0; i < 64; i++) {
        bytes[i & 31] = i * 7;
        halves[i & 15] = (int)(i * 331) - 9000;
        words[i] = i * 2654435761u;
        wide[i & 7] = words[i] * 0x100000001ull;
        nodes[i & 7] = (struct node){i * 3, (int)i - 20, i * 77, &nodes[(i * 5 + 1) & 7]};
        views[i & 15].word = i * 0x01030507u;
    }
    for (unsigned i = 0; i < JOBS; i++)
        jobs[i] = (struct job){i, i * 3, i * 5, i * 7, words, bytes, &jobs[(i * 7 + 1) % JOBS]};
}

static int end(unsigned result) {
    unsigned long long sum = result;
    for (unsigned i = 0; i < 64; i++) {
        sum = sum * 31 + bytes[i & 31] + (unsigned short)halves[i & 15] + words[i] + wide[i & 7];
        sum += nodes[i & 7].large + views[i & 15].word;
    }
    for (unsigned i = 0; i < JOBS; i++) sum = sum * 17 + (jobs[i].kind ^ jobs[i].size) + (jobs[i].from ^ jobs[i].to);
    put_number((long long)(sum + total));
    put("\n", 1);
    return (sum >> 5) % 251;
}
