# From reset: host and sandboxes run in M-mode, without paging.
#include "../machine.h"
        .section .init, "ax"
        .globl  start
start:  csrw    mstatus, zero           # a boot loader may have left interrupts on
        csrw    mie, zero
        csrr    t0, mhartid
        li      t1, HOST_HART
        beq     t0, t1, first
park:   wfi
        j       park
first:  la      sp, stack_top
        la      t0, vectors + MTVEC_VECTORED
        csrw    mtvec, t0
        csrw    mscratch, zero          # the host runs
        csrr    t1, mtvec
        ori     t1, t1, MTVEC_VECTORED  # where there is one place for all, it is the first
        li      t2, CHIP_RAM            # memory may hold anything after a reset
        li      t3, RAM_END
clear:  sw      zero, 0(t2)
        addi    t2, t2, 4
        bltu    t2, t3, clear
        sub     s0, t0, t1
        call    start_chip
        bnez    s0, no_handler
        li      t0, MIE_MTIE
        csrw    mie, t0                 # and no other interrupt
        la      sp, judge_stack_top     # where the sandboxes' data are later
        call    judge
        la      sp, stack_top
        j       run_host

no_handler:
        la      a0, handler_refused
        j       refuse

        .balign 256                     # some cores want this
vectors:
        .rept   32
        j       sfi_device_trapped
        .endr

        .section .rodata
handler_refused:
        .asciz  "mtvec isn't as it was written: no trap comes to the host"
