# The first sandbox never ends its turn by itself; the second exits after its neighbour's first
# turn.
.sandbox 256
loop:   j    loop

.sandbox 256
.gate exit 0
.gate yield 3

        call yield
        li   a0, 7
        call exit
