# Gates without a trap. In the place of a listed gate's ecall stands one jump, a springboard, to a slot of the
# host's own (springboards.c), which comes here and goes back to what is after the ecall. As at a trap the host
# finds its own by SCRATCH, trusts no register of the sandbox, least of all x2, and gives each one back but a0
# and a1. A slot first turns interrupts off. So one can come in a slot in two places alone, before its first
# instruction and before a jump that ends it, where the registers are the sandbox's and SCRATCH is the frame.
# What of the host runs here may not use gp and tp (common.mk: there are no small data, and no threads).
#include "machine.h"
#include "registers.h"

        .set    IN, 19                  # the host's instructions at a call, before the first count and after the second
        .set    OUT, 24

        .text
        .option norelax
        .globl  slot, slot_back, slot_jump, slot_end, board
        .balign 4
slot:   csrci   STATUS, STATUS_INTERRUPTS
        csrrw   a0, SCRATCH, a0         # the frame
        sw      t0, 4*5(a0)
        lui     t0, %hi(board)
        jalr    t0, %lo(board)(t0)
slot_back:                              # where the call has its reply
        lw      t0, 4*5(a0)
        csrrw   a0, SCRATCH, a0
        csrsi   STATUS, STATUS_INTERRUPTS
slot_jump:
        .word   0                       # to what is after the ecall
        lw      t0, 4*5(a0)             # where the call is made again
        csrrw   a0, SCRATCH, a0
        csrsi   STATUS, STATUS_INTERRUPTS
        j       slot
slot_end:

# t0 is the slot's slot_back, a0 the frame, and SCRATCH the sandbox's a0.
board:  each_passed sw
count_in:
        csrr    t1, RETIRED
        sw      t1, FRAME_CALLED(a0)
        csrrw   t1, SCRATCH, zero       # from here on a trap is the host's own
        sw      t1, 4*10(a0)
        sw      sp, 4*2(a0)
        lw      sp, FRAME_HOST_STACK(a0)
        addi    sp, sp, -16
        sw      a0, 0(sp)
        sw      t0, 4(sp)
        mv      a0, t0
        call    board_call              # keeps s0 to s11, gp and tp, which are the sandbox's
        mv      t2, a0
        lw      a0, 0(sp)
        lw      t0, 4(sp)
        li      t1, BOARD_LEAVES
        beq     t2, t1, leaves
        slli    t2, t2, 4               # BOARD_REPLIED is 0; BOARD_AGAIN is 1, and its way back 16 bytes on
        add     t0, t0, t2
        lw      sp, 4*2(a0)
        lw      t1, 4*10(a0)
        csrw    SCRATCH, t1
        lw      t2, FRAME_CALLED(a0)    # what the host does here is no step of the sandbox
        lw      t3, FRAME_BEFORE(a0)
count_out:
        csrr    t1, RETIRED
        sub     t1, t1, t2
        add     t1, t1, t3
        addi    t1, t1, IN + OUT
        sw      t1, FRAME_BEFORE(a0)
        each_passed lw
        jr      t0
board_end:
        .if     ((slot_back - slot) + (count_in - board) - (4 * IN)) || ((board_end - count_out) + (slot_jump + 4 - slot_back) - (4 * OUT))
        .error  "the counts of instructions are wrong"
        .endif

# As sfi_device_trapped leaves, if the gate's ecall had trapped.
leaves: .irp    r, 3,4,8,9,18,19,20,21,22,23,24,25,26,27
        sw      x\r, 4*\r(a0)
        .endr
        lw      t1, FRAME_CALLED(a0)
        la      t2, sfi_device_trap_instructions
        lw      t2, 0(t2)
        add     t1, t1, t2
        addi    t1, t1, -(IN)
        sw      t1, FRAME_AFTER(a0)
        lw      sp, FRAME_HOST_STACK(a0)
        each_kept lw
        addi    sp, sp, 64
        li      a0, CAUSE_GATE
        ret
