# A trap or interrupt of the host itself ends it. A kernel has its own in the place of this.
#include "machine.h"

        .text
        .weak   sfi_device_trap_of_host
sfi_device_trap_of_host:
        csrr    a0, CAUSE
        csrr    a1, EXCEPTION_PC
        la      sp, stack_top
        j       host_fault
