# Computations and a branch: a xorshift generator and a sum over what it makes. Each 65536 rounds the sum is put.
.sandbox 4096
.gate put 1

        li   s0, 0x12345
        li   s1, 0
again:  li   t0, 65536
loop:   slli t1, s0, 13
        xor  s0, s0, t1
        srli t1, s0, 17
        xor  s0, s0, t1
        slli t1, s0, 5
        xor  s0, s0, t1
        sltu t2, s1, s0
        add  s1, s1, s0
        sub  s1, s1, t2
        addi t0, t0, -1
        bnez t0, loop
        la   a0, sum
        sw   s1, 0(a0)
        li   a1, 4
        call put
        j    again

.data
sum:    .word 0
