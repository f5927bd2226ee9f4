# Reports, and then counts its turns in a word of its data, without end.
.sandbox 4096
.gate yield 3
.gate report 4
        call report
more:   la   t0, turns
        lw   t1, 0(t0)
        addi t1, t1, 1
        sw   t1, 0(t0)
        call yield
        j    more

.data
turns:  .word 0
