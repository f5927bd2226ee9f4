# crc32.c as a source text.
.format 2
.sandbox 16384
.gate exit_with 0
.gate put 1
.gate get 2
.option rvc
addi sp,sp,-16
call main
.option norvc
nop
nop
nop
call exit_with
main:
.option rvc
addi sp,sp,-48
.option norvc
sw s3,28(sp)
lui a2,973704
la s3,table
.option rvc
sw ra,44(sp)
sw s0,40(sp)
sw s1,36(sp)
sw s2,32(sp)
add a0,zero,s3
li a1,0
addi a2,a2,800
li a6,256
_.L4:
add a5,zero,a1
li a4,8
j _.L3
_.L3:
andi a3,a5,1
addi a4,a4,-1
srli a5,a5,1
beq a3,zero,_.L2
.option norvc
xor a5,a5,a2
_.L2:
bne a4,zero,_.L3
sw a5,0(a0)
.option rvc
addi a1,a1,1
addi a0,a0,4
bne a1,a6,_.L4
la s2,chunk
lui a1,1
add a0,zero,s2
.option norvc
li s1,0
li s0,-1
call get
blt zero,a0,_.L7
j _.L17
_.L7:
la a4,chunk
add a2,a0,a4
nop
_.L6:
lbu a5,0(a4)
srli a3,s0,8
.option rvc
addi a4,a4,1
xor a5,a5,s0
andi a5,a5,255
.option norvc
slli a5,a5,2
add a5,a5,s3
lw s0,0(a5)
xor s0,s0,a3
bne a2,a4,_.L6
.option rvc
lui a1,1
add a0,zero,s2
.option norvc
addi s1,s1,1
call get
blt zero,a0,_.L7
j _.L17
_.L17:
xori s0,s0,-1
.option rvc
addi a3,sp,4
li a4,28
la a1,_.LC0
li a2,-4
j _.L8
_.L8:
srl a5,s0,a4
.option norvc
andi a5,a5,15
add a5,a5,a1
addi a4,a4,-4
lbu a5,0(a5)
addi a3,a3,1
sb a5,-1(a3)
bne a4,a2,_.L8
.option rvc
addi a0,sp,4
li a5,10
.option norvc
li a1,9
sb a5,12(sp)
call put
lw ra,44(sp)
lw s0,40(sp)
lw s2,32(sp)
lw s3,28(sp)
.option rvc
add a0,zero,s1
lw s1,36(sp)
addi sp,sp,48
ret
.data
_.LC0:
.word 0x33323130,0x37363534,0x62613938,0x66656463,0x0
table:
.zero 1024
chunk:
