# With cases/counter_services.c: adds 40 and 2 to a counter that the host keeps, each time as a word of
# its data, and exits with what the host says. A word that isn't its own is refused.
.sandbox 256
.gate exit 0
.gate add 1

        li   a0, 64             # outside its data
        call add
        addi s0, a0, 1          # 0 where that was refused
        la   a0, first
        call add
        la   a0, second
        call add
        add  a0, a0, s0
        call exit

.data
first:  .word 40
second: .word 2
