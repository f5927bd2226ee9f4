# Functions whose calls fail, for failed_calls.c. At its start the plug-in tells where they are. Each counts itself in the first
# word of the data; the stack has so little room that some twenty frames which are left there change the last words.
.sandbox 512
.gate exit 0
.gate tell 1
.gate host 2
        la   a0, get
        la   a1, ask
        la   a2, wide
        la   a3, break
        la   a4, spin
        call tell
        call exit

get:    slli a0, a0, 2                  # the word of that number
        la   t0, words
        add  t0, t0, a0
        lw   a0, 0(t0)
        ret

ask:    addi sp, sp, -16                # what the host answers, and its argument
        sw   ra, 12(sp)
        sw   a0, 8(sp)
        la   t0, words
        lw   t1, 0(t0)
        addi t1, t1, 1
        sw   t1, 0(t0)
        call host
        lw   t1, 8(sp)
        add  a0, a0, t1
        lw   ra, 12(sp)
        addi sp, sp, 16
        ret

wide:   mul  t0, a0, a1                 # a product of 64 bits
        mulhu a1, a0, a1
        mv   a0, t0
        ret

break:  la   t0, words
        lw   t1, 0(t0)
        addi t1, t1, 1
        sw   t1, 0(t0)
        ebreak

spin:   la   t0, words
        lw   t1, 0(t0)
        addi t1, t1, 1
        sw   t1, 0(t0)
on:     j    on

.data
words:  .zero 256

# another plug-in, to which nothing happens
.sandbox 256
        ebreak
