# Writes the Fibonacci numbers of index 0 to 15 in decimal digits, one a line, and exits with how many there are.
# Each function keeps its frame on the stack, and two call themselves. Without the line `.format 2` this is a text of the first format.
.format 2
.sandbox 1024
.gate put 1
.gate exit 0

        li   s0, 0
again:  mv   a0, s0
        call fibonacci
        call write_number
        addi s0, s0, 1
        li   t0, 16
        bne  s0, t0, again
        mv   a0, s0
        call exit

# a0 becomes the Fibonacci number of index a0.
fibonacci:
        addi sp, sp, -16
        sw   ra, 12(sp)
        sw   s0, 8(sp)
        sw   s1, 4(sp)
        li   t0, 2
        bltu a0, t0, found
        mv   s0, a0
        addi a0, s0, -1
        call fibonacci
        mv   s1, a0
        addi a0, s0, -2
        call fibonacci
        add  a0, a0, s1
found:  lw   s1, 4(sp)
        lw   s0, 8(sp)
        lw   ra, 12(sp)
        addi sp, sp, 16
        ret

# Writes a0 in decimal digits, and a line feed.
write_number:
        addi sp, sp, -16
        sw   ra, 12(sp)
        call write_digits
        li   a0, 10
        call write_byte
        lw   ra, 12(sp)
        addi sp, sp, 16
        ret

# Writes a0 in decimal digits: those before the last, and then the last.
write_digits:
        addi sp, sp, -16
        sw   ra, 12(sp)
        sw   s0, 8(sp)
        li   t0, 10
        remu s0, a0, t0
        divu a0, a0, t0
        beqz a0, last
        call write_digits
last:   addi a0, s0, 48         # 0
        call write_byte
        lw   s0, 8(sp)
        lw   ra, 12(sp)
        addi sp, sp, 16
        ret

# Writes the byte a0.
write_byte:
        addi sp, sp, -16
        sw   ra, 12(sp)
        sb   a0, 8(sp)
        addi a0, sp, 8
        li   a1, 1
        call put
        lw   ra, 12(sp)
        addi sp, sp, 16
        ret
