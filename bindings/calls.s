# A plug-in whose functions return, ask the host, trap and never end: the tests of the bindings call them in each language.
# Its stack begins above the table and can come to it: a frame that a failed call leaves there overwrites the table in time.
.format 2
.sandbox 512
.export get
.export noted
.export parse
.export sum_by
.export wide
.export wild
.export spin
.gate exit 0
.import ask 3
        call exit

# get(i): the word i of the table, 1000 + i
get:    slli a0, a0, 2
        la   t0, table
        add  t0, t0, a0
        lw   a0, 0(t0)
        ret

# parse(c) notes c, and answers what ask(c) answers.
parse:  addi sp, sp, -16
        sw   ra, 12(sp)
        la   t0, noted
        sw   a0, 0(t0)
        call ask
        lw   ra, 12(sp)
        addi sp, sp, 16
        ret

# sum_by(n): ask(n - 1) + .. + ask(0)
sum_by: addi sp, sp, -16
        sw   ra, 12(sp)
        sw   s0, 8(sp)
        sw   s1, 4(sp)
        mv   s0, a0
        li   s1, 0
next:   beqz s0, done
        addi s0, s0, -1
        mv   a0, s0
        call ask
        add  s1, s1, a0
        j    next
done:   mv   a0, s1
        lw   ra, 12(sp)
        lw   s0, 8(sp)
        lw   s1, 4(sp)
        addi sp, sp, 16
        ret

# wide(low, high): both words
wide:   ret

# wild(c) notes c, and stores below its data.
wild:   la   t0, noted
        sw   a0, 0(t0)
        la   t0, table
        sw   a0, -4(t0)
        ret

# spin(c) notes c, and never ends.
spin:   la   t0, noted
        sw   a0, 0(t0)
on:     j    on

.data
table:  .word 1000, 1001, 1002, 1003, 1004, 1005, 1006, 1007, 1008, 1009, 1010, 1011, 1012, 1013, 1014, 1015
        .word 1016, 1017, 1018, 1019, 1020, 1021, 1022, 1023, 1024, 1025, 1026, 1027, 1028, 1029, 1030, 1031
        .word 1032, 1033, 1034, 1035, 1036, 1037, 1038, 1039, 1040, 1041, 1042, 1043, 1044, 1045, 1046, 1047
        .word 1048, 1049, 1050, 1051, 1052, 1053, 1054, 1055, 1056, 1057, 1058, 1059, 1060, 1061, 1062, 1063
noted:  .word 0
