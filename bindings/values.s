# A plug-in whose functions take and give values by signatures: the tests of the bindings claim them, in a table that they make.
.format 2
.sandbox 4096
.export same
.export last
.export later
.export add
.export length
.export total
.export raise
.export tail
.export stack
.export forward
.export keep
.export greeting
.gate exit 0
.import ask 3
        call exit

# same(..): the first two words
same:   ret

# last(..): the eighth word
last:   mv   a0, a7
        ret

# later(..): the fourth and fifth words
later:  mv   a0, a3
        mv   a1, a4
        ret

# add(a, b)
add:    add  a0, a0, a1
        ret

# length(text): how many bytes it has
length: mv   t0, a0
        li   a0, 0
more:   add  t1, t0, a0
        lbu  t1, 0(t1)
        beqz t1, ended
        addi a0, a0, 1
        j    more
ended:  ret

# total(bytes, count): their sum
total:  mv   t0, a0
        li   a0, 0
        add  t1, t0, a1
next:   beq  t0, t1, summed
        lbu  t2, 0(t0)
        add  a0, a0, t2
        addi t0, t0, 1
        j    next
summed: ret

# raise(bytes, count) adds 1 to each.
raise:  add  t1, a0, a1
        mv   t0, a0
up:     beq  t0, t1, raised
        lbu  t2, 0(t0)
        addi t2, t2, 1
        sb   t2, 0(t0)
        addi t0, t0, 1
        j    up
raised: ret

# tail(text): the text after its first byte
tail:   addi a0, a0, 1
        ret

# stack(..): the stack pointer
stack:  mv   a0, sp
        ret

# forward(..): what ask(..) answers to these words
forward: addi sp, sp, -16
        sw   ra, 12(sp)
        call ask
        lw   ra, 12(sp)
        addi sp, sp, 16
        ret

# keep(text): the text, after ask() had its way
keep:   addi sp, sp, -16
        sw   ra, 12(sp)
        sw   a0, 8(sp)
        call ask
        lw   a0, 8(sp)
        lw   ra, 12(sp)
        addi sp, sp, 16
        ret

.data
greeting: .byte 104, 101, 108, 108, 111, 32, 195, 164, 33, 0, 255, 104, 0
