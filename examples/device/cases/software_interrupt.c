/* A vendor's own interrupt: S-mode's software interrupt, or on a chip with SiFive's CLINT that of M-mode.
   It is raised ten times, and prints a line each time. unknown_interrupt.c knows it no more the fourth time. */
#include "host.h"

#ifdef MICROCONTROLLER
enum { SOFTWARE = 3 };
static void raise(uint32_t word) { *(volatile uint32_t *)0x02000000 = word; }
#define ENABLED "mie"
#else
enum { SOFTWARE = 1 };
static void raise(uint32_t word) {
    if (word)
        __asm__ volatile("csrsi sip, 2");
    else
        __asm__ volatile("csrci sip, 2");
}
#define ENABLED "sie"
#endif

#ifndef KNOWN
#define KNOWN 10
#endif
static uint32_t answered;

void start_interrupts(void) {
    __asm__ volatile("csrs " ENABLED ", %0" ::"r"(1 << SOFTWARE));
    raise(1);
}

bool answer_interrupt(uint32_t cause) {
    raise(++answered < 10);
    if (cause != SOFTWARE || answered > KNOWN)
        return false;
    print("interrupt ");
    print_decimal(cause);
    print("\n");
    return true;
}
