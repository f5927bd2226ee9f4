# Exits at once, so that it may be called. The function is in the next bundle: it puts a letter, and
# exits with the sum of its eight arguments.
.sandbox 256
.gate exit 0
.gate put 1
        call exit
        call sum
        call exit

sum:    mv   s0, ra
        add  s1, a0, a1
        add  s1, s1, a2
        add  s1, s1, a3
        add  s1, s1, a4
        add  s1, s1, a5
        add  s1, s1, a6
        add  s1, s1, a7
        la   a0, text
        li   a1, 1
        call put
        mv   a0, s1
        jr   s0

.data
text:   .byte 97
