# Copies its input to its output with small letters made capital, and exits with the number of bytes.
.sandbox 1024
.gate get 2
.gate put 1
.gate exit 0
.option rvc

        li   s0, 0              # the bytes so far
block:  la   a0, buffer
        li   a1, 64
        call get
        beqz a0, done
        add  s0, s0, a0
        mv   s1, a0             # the bytes of this block
        la   a2, buffer
        mv   a3, a0
        call capital
        la   a0, buffer
        mv   a1, s1
        call put
        j    block
done:   mv   a0, s0
        call exit

# Makes the a3 letters from a2 on capital.
capital:
        beqz a3, made
        lbu  t0, 0(a2)
        li   t1, 97             # a
        bltu t0, t1, next
        li   t1, 123            # after z
        bgeu t0, t1, next
        addi t0, t0, -32
        sb   t0, 0(a2)
next:   addi a2, a2, 1
        addi a3, a3, -1
        j    capital
made:   ret

.data
buffer: .zero 64
