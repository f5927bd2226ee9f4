# A plug-in that keeps something: it adds a0 to a sum in its data, which begins with 100, and exits with the sum.
.sandbox 256
.gate exit 0
        la   t0, sum
        lw   t1, 0(t0)
        add  a0, a0, t1
        sw   a0, 0(t0)
        call exit

.data
sum:    .word 100
