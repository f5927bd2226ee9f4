# Calls each service at the edges of what it answers, and puts each answer (a0, and of take a1 too).
# Then it exits with the number of answers. Its input should have 5 bytes.
.sandbox 4096
.gate exit 0
.gate put 1
.gate get 2
.gate yield 3
.gate post 4
.gate take 5

        li   s0, 0

        la   a0, buffer         # nothing, from anywhere
        li   a1, 0
        call put
        call told
        li   a0, 0
        li   a1, 0
        call put
        call told
        li   a0, 64             # outside the data
        li   a1, 1
        call put
        call told
        li   a0, 0x01800000     # all data but one byte, all, and one more
        li   a1, 4095
        call put
        call told
        li   a0, 0x01800000
        li   a1, 4096
        call put
        call told
        li   a0, 0x01800000
        li   a1, 4097
        call put
        call told
        li   a0, 0x01800fff     # the last byte, and one after it
        li   a1, 1
        call put
        call told
        li   a0, 0x01800fff
        li   a1, 2
        call put
        call told
        li   a0, 0x017fffff     # the byte before the data
        li   a1, 1
        call put
        call told
        li   a0, -1             # around the end of all addresses
        li   a1, 2
        call put
        call told
        li   a0, 0x01800000     # a length with the sign
        li   a1, -1
        call put
        call told

        li   a0, 0x01801000     # get beside the data, and within it
        li   a1, 1
        call get
        call told
        la   a0, buffer
        li   a1, 3
        call get
        call told
        la   a0, buffer
        li   a1, 0
        call get
        call told
        la   a0, buffer         # fewer bytes are left
        li   a1, 9
        call get
        call told
        la   a0, buffer
        li   a1, 9
        call get
        call told
        li   a1, 65537
        la   a0, buffer
        call get
        call told
        call yield
        call told

        call take               # an empty mailbox
        call told
        mv   a0, a1
        call told
        li   a0, 1              # no such sandbox
        li   a1, 7
        call post
        call told
        li   s1, 18             # itself, until the mailbox is full
fill:   li   a0, 0
        mv   a1, s1
        call post
        call told
        addi s1, s1, -1
        bnez s1, fill
        li   s1, 18
empty:  call take
        mv   s2, a1
        call told
        mv   a0, s2
        call told
        addi s1, s1, -1
        bnez s1, empty
        mv   a0, s0
        call exit

# Puts the word a0.
told:   mv   s3, ra
        addi s0, s0, 1
        la   t0, answer
        sw   a0, 0(t0)
        mv   a0, t0
        li   a1, 4
        call put
        jr   s3

.data
answer: .zero 4
buffer: .zero 16
