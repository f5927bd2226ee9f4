# The way into a sandbox and back. A sandbox may leave anything in its registers, so the host finds
# its own by SCRATCH, which no accepted code can write: it holds the frame while a sandbox runs,
# and 0 while the host does. A trap or interrupt of the host goes on to the firmware's
# sfi_device_trap_of_host, with each register as it was. `sfi_device_enter` is called with interrupts off, and comes back so,
# on whatever stack. Where the frame has a firmware a gate's call is answered on the way: s0 to s11 are the sandbox's then, and
# `sfi_device_enter` comes back only if the answer ends the turn.
#include "privileged.h"
#include "registers.h"

        .macro  each_saved operation    # of the sandbox, s0 to s11
        .irp    r, 8,9,18,19,20,21,22,23,24,25,26,27
        \operation x\r, 4*\r(a0)
        .endr
        .endm
        .macro  each_pointer operation  # sp, gp and tp
        .irp    r, 2,3,4
        \operation x\r, 4*\r(a0)
        .endr
        .endm

        .macro  aim                     # the way to where the frame at a0 has its pc, with interrupts on there
        csrw    SCRATCH, a0
        lw      t0, FRAME_PC(a0)
        csrw    EXCEPTION_PC, t0
        li      t0, STATUS_AT_ENTRY
        csrs    STATUS, t0
        .endm
        .macro  go                      # there, with the registers that a call changes
        each_pointer lw
        each_passed lw
        lw      t0, 4*5(a0)
        lw      a0, 4*10(a0)
        RETURN
        .endm

        .set    IN, SFI_DEVICE_JUMPS_TO_TRAPPED + 17    # instructions at a trap before its count, ..
        .set    OUT, 25                                 # .. and at a reply from its count on

        .text
        .option norvc                   # the counts are of instructions of 4 bytes
        .option norelax
        .globl  sfi_device_enter, sfi_device_trapped
sfi_device_enter:
        addi    sp, sp, -64
        each_kept sw
        sw      a0, HOST_STACK_FRAME(sp)
        sw      sp, FRAME_HOST_STACK(a0)
        aim
count_before:
        csrr    t0, RETIRED
        sw      t0, FRAME_BEFORE(a0)
        each_saved lw
        go
enter_end:

        .balign 4
sfi_device_trapped:
        csrrw   a0, SCRATCH, a0
        beqz    a0, not_of_sandbox
trap_saves:
        sw      t0, 4*5(a0)
        each_passed sw
count_after:
        csrr    t0, RETIRED
        sw      t0, FRAME_AFTER(a0)
        csrrw   t0, SCRATCH, zero       # the sandbox's a0: from here on a trap is the host's own
        sw      t0, 4*10(a0)
        csrr    t0, EXCEPTION_PC
        sw      t0, FRAME_PC(a0)
        each_pointer sw
        lw      sp, FRAME_HOST_STACK(a0)
        csrr    t0, CAUSE
        li      t1, CAUSE_ECALL
        bne     t0, t1, leave
        lw      t1, FRAME_FIRMWARE(a0)
        beqz    t1, leave
        lw      gp, 4(sp)               # as each_kept has them
        lw      tp, 8(sp)
        call    sfi_device_answer
        beqz    a0, turn_ends
        aim                             # the sandbox goes on, behind its call or with it
        lw      t1, FRAME_AFTER(a0)     # what the host does here is no step of the sandbox
        lw      t2, FRAME_BEFORE(a0)
count_reply:
        csrr    t0, RETIRED
        sub     t0, t0, t1
        add     t0, t0, t2
        addi    t0, t0, IN + OUT
        sw      t0, FRAME_BEFORE(a0)
        go
reply_end:
        .if     ((count_after - trap_saves) - 4 * (IN - SFI_DEVICE_JUMPS_TO_TRAPPED - 2)) || ((reply_end - count_reply) - 4 * OUT)
        .error  "the counts of instructions are wrong"
        .endif

turn_ends:
        lw      a0, HOST_STACK_FRAME(sp)
        li      t0, CAUSE_GATE
leave:  each_saved sw                   # t0 is what sfi_device_enter answers
        each_kept lw
        addi    sp, sp, 64
        mv      a0, t0
        ret
not_of_sandbox:
        csrrw   a0, SCRATCH, zero
        j       sfi_device_trap_of_host

        .section .rodata
        .globl  sfi_device_switch_instructions, sfi_device_trap_instructions    # each has 4 bytes
        .balign 4
sfi_device_switch_instructions:
        .word   (enter_end - count_before) / 4 + IN
sfi_device_trap_instructions:
        .word   IN
