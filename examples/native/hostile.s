# What hostile.c runs: a0 rounds that mix a2 and write and read the data; then, by a1, exit (0), a store above the data (1), a
# load below them (-1), or accesses by data registers as they are (2): hostile.py puts others into those from `other` on.
.format words
.sandbox 8192
.gate exit 0
        la   t3, first
loop:   beqz a0, done
        addi a0, a0, -1
        slli t1, a2, 13
        xor  a2, a2, t1
        srli t1, a2, 17
        xor  a2, a2, t1
        slli t1, a2, 5
        xor  a2, a2, t1
        add  a3, a3, a2
        srli t2, a2, 3
        slli t2, t2, 2
        or   t2, t2, t3
        sw   a3, 0(t2)
        lw   t0, 4(t2)
        add  a4, a4, t0
        j    loop
done:   beqz a1, leave
        blt  a1, zero, below
        slti t2, a1, 2
        beqz t2, plain
        li   t2, 8188
        add  t2, t2, t3
        sw   a3, 8(t2)
below:  lw   a3, -8(t3)
plain:  lw   a3, -4(sp)
        sw   a4, 0(gp)
        lbu  a4, 2047(tp)
other:  lw   a3, -2048(sp)
        sh   a4, 2046(sp)
        lbu  a4, -1(sp)
leave:  li   a0, 0
        call exit
.data
first:  .word 0
