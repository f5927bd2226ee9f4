# Loads and stores of words, halfwords and bytes, over a table of 4096 bytes. After each 64 walks its first 4 bytes are put.
.sandbox 8192
.gate put 1

again:  li   s1, 64
walk:   la   s0, table
        li   t0, 256
loop:   lw   a1, 0(s0)
        add  a1, a1, t0
        sw   a1, 4(s0)
        lhu  a2, 6(s0)
        lh   a3, 4(s0)
        sh   a2, 8(s0)
        sh   a3, 10(s0)
        lbu  a4, 9(s0)
        lb   a5, 1(s0)
        sb   a4, 12(s0)
        sb   a5, 13(s0)
        lw   a6, 12(s0)
        add  a1, a1, a6
        sw   a1, 16(s0)
        addi s0, s0, 16
        addi t0, t0, -1
        bnez t0, loop
        la   s0, table
        sw   a1, 0(s0)
        addi s1, s1, -1
        bnez s1, walk
        la   a0, table
        li   a1, 4
        call put
        j    again

.data
table:  .zero 4112
