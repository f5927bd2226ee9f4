/* Runs a program natively on RISC-V, by qemu-riscv32 and with picolibc: the start, and what picolibc asks of Linux. */
#include <stdio.h>
#include <stdlib.h>

extern int main(int, char **);

static long call(long number, long first, long second, long third) {
    register long a7 __asm__("a7") = number, a0 __asm__("a0") = first, a1 __asm__("a1") = second, a2 __asm__("a2") = third;
    __asm__ volatile("ecall" : "+r"(a0) : "r"(a7), "r"(a1), "r"(a2) : "memory");
    return a0;
}

void _exit(int code) {
    for (;;)
        call(93, code, 0, 0);
}

static int write_character(char character, FILE *stream) {
    (void)stream;
    call(64, 1, (long)&character, 1);
    return (unsigned char)character;
}

static FILE output = FDEV_SETUP_STREAM(write_character, 0, 0, _FDEV_SETUP_WRITE);
FILE *const stdout = &output;
FILE *const stderr = &output;
FILE *const stdin = &output;

static char heap[4 << 20];
static unsigned used;

void *sbrk(long more) {
    if (used + more > sizeof heap)
        return (void *)-1;
    used += more;
    return heap + used - more;
}

int kill(int process, int signal) {
    (void)process;
    _exit(128 + signal);
    return 0;
}

int getpid(void) {
    return 1;
}

void begin(void) {
    exit(main(0, 0));
}

/* picolibc's data of the one thread, such as errno, are zeros at first. */
char thread[4096] __attribute__((aligned(16)));

__asm__(".globl _start\n_start:\n.option push\n.option norelax\nla gp, __global_pointer$\n.option pop\n"
        "la tp, thread\ncall begin\n");
