# From reset to the host. M-mode prepares memory and hands every trap over; the host and its
# sandboxes share S-mode.
#include "machine.h"

        .section .init, "ax"
        .globl  start
start:  csrw    mstatus, zero           # a boot loader may have left interrupts on
        csrw    mie, zero
        csrr    t0, mhartid
        li      t1, HOST_HART
        beq     t0, t1, first
park:   wfi
        j       park
first:  la      t0, loader_fault
        csrw    mtvec, t0
        la      sp, stack_top
        la      t0, loader_memory       # it may hold anything after a reset
clear:  sw      zero, 0(t0)
        addi    t0, t0, 4
        bltu    t0, sp, clear
        call    load                    # answers what satp takes
        csrw    satp, a0
        csrr    t0, satp
        bne     t0, a0, no_paging
        sfence.vma
        fence.i                         # load has written code
        li      t0, -1
        csrw    medeleg, t0             # every trap goes to the host, the ecall from S-mode too
        csrw    mideleg, t0
        csrw    mcounteren, t0          # S-mode reads time and instret
        li      t0, MENVCFGH_STCE
        csrs    MENVCFGH, t0
        la      t0, sfi_device_trapped
        csrw    stvec, t0
        csrr    t1, stvec
        bne     t0, t1, no_handler
        csrw    sscratch, zero          # the host runs, and no sandbox
        li      t0, SIE_STIE
        csrw    mie, t0                 # and no other interrupt
        li      t0, MSTATUS_MPP_SUPERVISOR
        csrw    mstatus, t0             # all else off: interrupts of the host, and loads from code
        la      t0, run_host
        csrw    mepc, t0
        mret

no_paging:
        la      a0, paging_refused
        j       refuse
no_handler:
        la      a0, handler_refused
        j       refuse

        .balign 4
loader_fault:
        csrr    a0, mcause
        csrr    a1, mepc
        la      sp, stack_top
        j       host_fault

        .section .rodata
paging_refused:
        .asciz  "satp isn't as it was written: there is no paging"
handler_refused:
        .asciz  "stvec isn't as it was written: no trap comes to the host"
