# A function that a host calls by its name (add.c).
.format words
.sandbox 256
.export add
.gate exit 0                        # a host lets a function return to the first gate

add:    add  a0, a0, a1
        ret
