# Writes the moves that take five discs from peg A to peg C (the Towers of Hanoi, Lucas, 1883), one a line, and exits with how many there are.
# Each function keeps its frame on the stack, and `carry` calls itself. Without the line `.format 2` this is a text of the first format.
.format 2
.sandbox 1024
.gate put 1
.gate exit 0

        li   a0, 5
        li   a1, 65             # A
        li   a2, 67             # C
        li   a3, 66             # B
        call carry
        call exit

# Carries a0 discs from peg a1 to peg a2 by way of peg a3. a0 becomes the number of moves.
carry:  beqz a0, carried
        addi sp, sp, -32
        sw   ra, 28(sp)
        sw   s0, 24(sp)
        sw   s1, 20(sp)
        sw   s2, 16(sp)
        sw   s3, 12(sp)
        sw   s4, 8(sp)
        addi s0, a0, -1
        mv   s1, a1
        mv   s2, a2
        mv   s3, a3
        mv   a0, s0
        mv   a2, s3
        mv   a3, s2
        call carry
        mv   s4, a0
        mv   a0, s1
        mv   a1, s2
        call write_move
        mv   a0, s0
        mv   a1, s3
        mv   a2, s2
        mv   a3, s1
        call carry
        add  a0, a0, s4
        addi a0, a0, 1
        lw   s4, 8(sp)
        lw   s3, 12(sp)
        lw   s2, 16(sp)
        lw   s1, 20(sp)
        lw   s0, 24(sp)
        lw   ra, 28(sp)
        addi sp, sp, 32
carried:
        ret

# Writes the pegs a0 and a1, and a line feed.
write_move:
        addi sp, sp, -16
        sw   ra, 12(sp)
        sb   a0, 0(sp)
        sb   a1, 1(sp)
        li   t0, 10             # a line feed
        sb   t0, 2(sp)
        mv   a0, sp
        li   a1, 3
        call put
        lw   ra, 12(sp)
        addi sp, sp, 16
        ret
