# Prints "Hi" and exits with the code of its last letter.
.sandbox 256
.gate put 1
.gate quit 0

        la   a0, text
        li   a1, 2
        call put
        la   a0, text
        lbu  a0, 1(a0)
        call quit

.data
text:   .byte 72, 105
