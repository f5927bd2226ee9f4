# Writes the digits 1 to 9, one a line, and yields its turn after each.
.sandbox 256
.gate put 1
.gate yield 3
.gate exit 0

        li   s0, 1
again:  mv   a0, s0
        call write_digit
        call yield
        addi s0, s0, 1
        li   t0, 10
        bne  s0, t0, again
        li   a0, 0
        call exit

# Writes the digit a0 and a line feed. It calls a gate, so it keeps its own return address on the stack.
write_digit:
        addi sp, sp, -16
        sw   ra, 0(sp)
        addi a0, a0, 48
        la   t0, line
        sb   a0, 0(t0)
        mv   a0, t0
        li   a1, 2
        call put
        lw   ra, 0(sp)
        addi sp, sp, 16
        ret

.data
line:   .byte 0, 10
