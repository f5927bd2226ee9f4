# What library.c calls.
.format words
.sandbox 4096
.gate exit 0
.gate ask 3
.export add
.export fault
.export load
.export doubled

        call exit

add:    add  a0, a0, a1
        ret

fault:  la   t0, first              # four bytes below the data
        lw   a0, -4(t0)
        ret

load:   lw   a0, 0(a0)
        ret

doubled:
        mv   s0, ra
        call ask                    # a0 becomes the host's answer
        add  a0, a0, a0
        mv   ra, s0
        ret
.data
first:  .word 7
