# The plug-in of words_plugin.c, as a source text.
.format 2
.sandbox 16384
.gate exit_with 0
.gate price 2
la t1,capitalize
nop
nop
sw t1,16(zero)
la t1,ask_forever
sw t1,20(zero)
la t1,text
nop
nop
sw t1,24(zero)
call main
nop
nop
nop
call exit_with
ask_forever:
.option rvc
addi sp,sp,-16
.option norvc
sw ra,12(sp)
_.L2:
li a1,0
li a0,0
nop
call price
j _.L2
capitalize:
.option rvc
add a2,zero,a1
beq a1,zero,_.L10
add a2,a0,a1
li a7,1
addi t1,a2,-1
addi a4,a0,-1
li a1,0
li a2,0
.option norvc
li a6,25
sub a7,a7,a0
_.L9:
lbu a3,1(a4)
add a0,a7,a4
ori a5,a3,32
addi a5,a5,-97
andi a5,a5,255
bltu a6,a5,_.L7
andi a3,a3,-33
addi a1,a1,1
beq a0,zero,_.L8
nop
lbu a5,0(a4)
ori a5,a5,32
addi a5,a5,-97
andi a5,a5,255
bgeu a6,a5,_.L7
nop
_.L8:
sb a3,1(a4)
addi a2,a2,1
_.L7:
.option rvc
addi a4,a4,1
bne t1,a4,_.L9
add a0,zero,a2
j price
_.L10:
li a1,0
add a0,zero,a2
j price
main:
la a0,table
.option norvc
nop
nop
ret
.data
.zero 16
address..16:
table:
.word 0x0,0x0,0x0,0x100
text:
