# Loops with loads, computations, branches, stores, products, calls and returns. After each 256 rounds the sum is put.
.sandbox 65536
.gate put 1

        li   s1, 1
again:  li   s0, 256
outer:  la   t0, table
        li   t1, 64
inner:  lw   a1, 0(t0)
        mul  a2, a1, s1
        add  s1, s1, a2
        xor  s1, s1, t1
        andi a3, s1, 1
        beqz a3, even
        srli s1, s1, 1
even:   sw   s1, 0(t0)
        addi t0, t0, 4
        addi t1, t1, -1
        bnez t1, inner
        mv   a0, s1
        call turned
        mv   s1, a0
        addi s0, s0, -1
        bnez s0, outer
        la   a0, table
        li   a1, 4
        call put
        j    again

turned: slli t1, a0, 7
        srli a0, a0, 25
        or   a0, a0, t1
        ret

.data
table:  .zero 256
