# The kernel's own way in: switch.S comes here where a trap or interrupt isn't a sandbox's. All of a task is on its
# stack while it doesn't run. Such a context has 32 words: pc, x1, mstatus, and x3 to x31.
#include "../machine.h"

        .macro  each_of_task operation
        .irp    r, 1,3,4,5,6,7,8,9,10,11,12,13,14,15,16,17,18,19,20,21,22,23,24,25,26,27,28,29,30,31
        \operation x\r, 4*\r(sp)
        .endr
        .endm

        .text
        .globl  sfi_device_trap_of_host, start_task
sfi_device_trap_of_host:
        addi    sp, sp, -128
        each_of_task sw
        csrr    t0, mepc
        sw      t0, 0(sp)
        csrr    t0, mstatus             # whether interrupts are on in it
        sw      t0, 8(sp)
        mv      a0, sp
        csrr    a1, mcause
        call    next_task               # answers the context of the task that runs now
start_task:
        mv      sp, a0
        lw      t0, 0(sp)
        csrw    mepc, t0
        lw      t0, 8(sp)
        csrw    mstatus, t0
        each_of_task lw
        addi    sp, sp, 128
        mret
