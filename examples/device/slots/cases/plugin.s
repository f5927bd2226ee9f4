# Reports, puts a letter, and exits with the number of its version. `add` exits with the sum of its two
# arguments and of the calls so far, which a word of its data counts; `endless` never ends.
.sandbox 4096
.gate exit 0
.gate put 1
.gate report 4
        call report
        mv   s0, a0
        la   a0, letter
        li   a1, 1
        call put
        mv   a0, s0
        call exit

add:    la   t0, calls
        lw   t1, 0(t0)
        addi t1, t1, 1
        sw   t1, 0(t0)
        add  a0, a0, a1
        add  a0, a0, t1
        call exit

endless: j   endless

.data
calls:  .word 0
letter: .byte 97
