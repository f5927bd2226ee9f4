# Writes the first 512 bytes of its input in order, and exits with how many there are. It sorts by merging (von Neumann, 1945).
# `sort` calls itself and keeps its frame on the stack. Without the line `.format 2` this is a text of the first format.
.format 2
.sandbox 4096
.gate get 2
.gate put 1
.gate exit 0

        la   a0, bytes
        li   a1, 512
        call get
        mv   s0, a0             # how many
        mv   a1, a0
        la   a0, bytes
        call sort
        la   a0, bytes
        mv   a1, s0
        call put
        mv   a0, s0
        call exit

# Sorts the a1 bytes from a0 on.
sort:   li   t0, 2
        bltu a1, t0, sorted
        addi sp, sp, -16
        sw   ra, 12(sp)
        sw   s0, 8(sp)
        sw   s1, 4(sp)
        sw   s2, 0(sp)
        mv   s0, a0
        srli s1, a1, 1          # the length of the first half
        sub  s2, a1, s1         # and of the second
        mv   a1, s1
        call sort
        add  a0, s0, s1
        mv   a1, s2
        call sort
        mv   a0, s0
        mv   a1, s1
        mv   a2, s2
        call merge
        lw   s2, 0(sp)
        lw   s1, 4(sp)
        lw   s0, 8(sp)
        lw   ra, 12(sp)
        addi sp, sp, 16
sorted: ret

# Merges the a1 bytes from a0 on with the a2 bytes after them, both in order. The first half is copied out of the way.
merge:  la   t0, half
        mv   t1, a0
        mv   t2, a1
copy:   lbu  t3, 0(t1)
        sb   t3, 0(t0)
        addi t1, t1, 1
        addi t0, t0, 1
        addi t2, t2, -1
        bnez t2, copy
        la   t0, half           # t1 is where the second half begins
choose: beqz a1, merged
        beqz a2, first
        lbu  t3, 0(t0)
        lbu  a6, 0(t1)
        bltu a6, t3, second
first:  lbu  t3, 0(t0)
        sb   t3, 0(a0)
        addi t0, t0, 1
        addi a1, a1, -1
        j    next
second: sb   a6, 0(a0)
        addi t1, t1, 1
        addi a2, a2, -1
next:   addi a0, a0, 1
        j    choose
merged: ret

.data
bytes:  .zero 512
half:   .zero 256
