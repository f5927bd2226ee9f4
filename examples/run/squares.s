# Two plug-ins. The first posts three numbers to the second, and exits with the sum of what comes back. The second posts the
# square of each number back, and then never ends, without a call.
.sandbox 256
.gate exit 0
.gate yield 3
.gate post 4
.gate take 5

        li   s0, 0              # the sum
        la   s1, numbers
        li   s2, 3              # how many are left
ask:    lw   a1, 0(s1)
        li   a0, 1
        call post
wait:   call take
        bnez a1, got
        call yield
        j    wait
got:    add  s0, s0, a0
        addi s1, s1, 4
        addi s2, s2, -1
        bnez s2, ask
        mv   a0, s0
        call exit

.data
numbers: .word 7, 11, 13

.sandbox 256
.gate yield 3
.gate post 4
.gate take 5

        li   s0, 3
wait:   call take
        bnez a1, got
        call yield
        j    wait
got:    mul  a1, a0, a0
        li   a0, 0
        call post
        addi s0, s0, -1
        bnez s0, wait
forever:
        j    forever
