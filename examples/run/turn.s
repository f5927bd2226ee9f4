# A plug-in that is called as a function. At its start it exits, so that it may be entered. The function begins in the bundle
# after that: it turns the a1 bytes from a0 on round, has the host put them into upper case, and returns what the host answered.
.sandbox 256
.gate exit 0
.gate upper 1
        call exit
turn:   mv   s0, a0
        mv   s1, a1
        mv   s2, ra
        add  t0, a0, a1
swap:   addi t0, t0, -1
        bgeu a0, t0, turned
        lbu  t1, 0(a0)
        lbu  t2, 0(t0)
        sb   t2, 0(a0)
        sb   t1, 0(t0)
        addi a0, a0, 1
        j    swap
turned: mv   a0, s0
        mv   a1, s1
        call upper
        jr   s2
