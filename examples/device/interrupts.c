/* Interrupts of a vendor's own: none. A vendor's file in the place of this one turns on what it wants in
   start_interrupts, and quiets it in answer_interrupt. */
#include "host.h"

void start_interrupts(void) {}

bool answer_interrupt(uint32_t cause) {
    (void)cause;
    return false;
}
