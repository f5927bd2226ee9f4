# The first sandbox counts in its data, sums, calls, and passes what it has; the other one ends at its first turns: of it the bindings
# take snapshots.
.sandbox 512
.gate tell 5
        la   s0, count
        li   s3, 1
again:  li   s2, 0
more:   lw   t0, 0(s0)
        add  t0, t0, s3
        sw   t0, 0(s0)
        call sum
        addi s2, s2, 1
        slti t1, s2, 9
        bnez t1, more
        call tell
        add  s3, s3, a0
        j    again
sum:    addi sp, sp, -16
        sw   ra, 12(sp)
        add  a0, a0, t0
        xor  a1, a1, a0
        lw   ra, 12(sp)
        addi sp, sp, 16
        ret
.data
count:  .word 5
.sandbox 256
.gate exit 0
        li   a0, 3
        call exit
