# Puts 16 times 65536 bytes, which is all the output that there is room for, then one byte more, and
# exits with that answer.
.sandbox 131072
.gate exit 0
.gate put 1

        li   s0, 16
more:   la   a0, text
        li   a1, 65536
        call put
        addi s0, s0, -1
        bnez s0, more
        la   a0, text
        li   a1, 65537
        call put
        mv   s1, a0
        la   a0, text
        li   a1, 1
        call put
        sub  a0, a0, s1
        call exit

.data
text:   .byte 1, 2, 3
