# The registers of physical memory protection, whose numbers are part of the instructions. Where one isn't
# there, the access traps, and the function ends there.
#include "../privileged.h"

        .macro  each_entry              # csrw or csrr, and lw or sw, of `each`
        .set    number, 0
        .rept   SFI_DEVICE_PMP_ENTRIES
        each    PMPADDR0 + number, 4*number(a0)
        .set    number, number + 1
        .endr
        .set    number, 0
        .rept   SFI_DEVICE_PMP_ENTRIES / 4
        each    PMPCFG0 + number, 4*number(a1)
        .set    number, number + 1
        .endr
        .endm

        .text
        .globl  sfi_device_pmp_write, sfi_device_pmp_read, sfi_device_pmp_rules
sfi_device_pmp_write:                              # addresses, configurations
        la      t1, ended
        csrrw   t1, mtvec, t1
        .macro  each register, place
        lw      t0, \place
        csrw    \register, t0
        .endm
        each_entry
        .purgem each
        j       ended

sfi_device_pmp_read:                               # where to: addresses, configurations
        la      t1, ended
        csrrw   t1, mtvec, t1
        .macro  each register, place
        csrr    t0, \register
        sw      t0, \place
        .endm
        each_entry
        j       ended

sfi_device_pmp_rules:                 # answers mseccfg: 0 where it isn't there
        la      t1, ended
        csrrw   t1, mtvec, t1
        li      a0, 0
        csrr    a0, MSECCFG

        .balign 256                     # some cores want this
ended:  csrw    mtvec, t1
        ret
