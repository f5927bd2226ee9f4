# sort.c as a source text.
.format 2
.sandbox 131072
.gate exit_with 0
.gate put 1
.gate get 2
.option rvc
addi sp,sp,-32
call main
.option norvc
nop
nop
nop
call exit_with
ascending:
slt a0,a0,a1
ret
descending:
slt a0,a1,a0
ret
sift.constprop.0:
.option rvc
addi sp,sp,-64
sw s2,48(sp)
sw s4,40(sp)
slli s2,a0,2
la s4,numbers
add a3,s4,s2
sw s1,52(sp)
add s1,zero,a1
lw a1,0(a3)
slli a4,a0,1
sw s7,28(sp)
sw ra,60(sp)
sw s0,56(sp)
sw s3,44(sp)
sw s5,36(sp)
sw s6,32(sp)
addi s7,a4,1
sw a1,12(sp)
bge s7,s1,_.L5
add a5,zero,a0
.option norvc
add s3,zero,a2
_.L9:
addi a4,a4,2
addi a5,a5,1
slli a3,a4,2
slli s5,s7,2
slli a5,a5,1
add s6,s4,a3
add s5,s5,s4
blt a5,s1,_.L15
_.L6:
.option rvc
add s0,zero,s7
j _.L8
_.L8:
lw a1,0(s5)
.option norvc
lw a0,12(sp)
nop
jalr ra,0(s3)
slli a4,s0,1
addi s7,a4,1
add a5,zero,s0
add a3,s4,s2
beq a0,zero,_.L5
lw a2,0(s5)
slli s2,s0,2
sw a2,0(a3)
blt s7,s1,_.L9
.option rvc
add a3,zero,s5
j _.L5
_.L5:
.option norvc
lw a5,12(sp)
lw ra,60(sp)
lw s0,56(sp)
nop
sw a5,0(a3)
lw s1,52(sp)
lw s2,48(sp)
lw s3,44(sp)
lw s4,40(sp)
lw s5,36(sp)
.option rvc
lw s6,32(sp)
lw s7,28(sp)
addi sp,sp,64
ret
_.L15:
lw a1,0(s6)
.option norvc
add s0,zero,a4
lw a0,0(s5)
nop
nop
jalr ra,0(s3)
beq a0,zero,_.L6
.option rvc
add s5,zero,s6
j _.L8
main:
addi sp,sp,-64
sw s0,56(sp)
sw s1,52(sp)
sw s2,48(sp)
sw ra,60(sp)
sw s3,44(sp)
sw s4,40(sp)
sw s5,36(sp)
li s0,0
la s2,text
lui s1,16
j _.L17
_.L19:
add s0,s0,a0
blt s0,s1,_.L17
j _.L18
_.L17:
sub a1,s1,s0
add a0,s2,s0
.option norvc
nop
call get
blt zero,a0,_.L19
j _.L18
_.L18:
add a0,s2,s0
bgeu s2,a0,_.L20
la s1,ascending
li s0,0
la a4,text
li a7,100
la t3,descending
li a6,9
li t4,45
la t1,numbers
lui t5,1
nop
_.L30:
lbu t0,0(a4)
addi a5,t0,-45
sltiu a3,a5,1
add a4,a4,a3
beq t0,a7,_.L47
bgeu a4,a0,_.L21
lbu a3,0(a4)
li a2,0
addi a3,a3,-48
andi a3,a3,255
bgeu a6,a3,_.L22
j _.L21
_.L26:
.option rvc
addi a4,a4,1
add a2,a1,a5
bne a0,a4,_.L22
j _.L25
_.L22:
lbu a1,0(a4)
slli a5,a2,2
add a5,a5,a2
addi a3,a1,-48
slli a5,a5,1
andi a3,a3,255
addi a5,a5,-48
bgeu a6,a3,_.L26
j _.L25
_.L25:
bne t0,t4,_.L28
sub a2,zero,a2
.option norvc
nop
nop
_.L28:
slli a5,s0,2
add a5,a5,t1
addi s0,s0,1
add s3,zero,t1
sw a2,0(a5)
bgeu a4,a0,_.L24
bne s0,t5,_.L30
li s2,2047
nop
nop
_.L29:
.option rvc
li s4,-1
j _.L32
_.L32:
add a0,zero,s2
add a2,zero,s1
.option norvc
addi s2,s2,-1
add a1,zero,s0
call sift.constprop.0
bne s2,s4,_.L32
addi s2,s0,-1
.option rvc
slli s2,s2,2
add s2,s2,s3
add s4,zero,s0
li s5,1
_.L33:
lw a4,20(zero)
addi s4,s4,-1
add a2,zero,s1
lw a5,0(s2)
.option norvc
add a1,zero,s4
sw a4,0(s2)
.option rvc
li a0,0
addi s2,s2,-4
sw a5,20(zero)
call sift.constprop.0
bne s4,s5,_.L33
j _.L34
_.L34:
lui a5,838861
slli s1,s0,2
.option norvc
add s1,s1,s3
la s4,numbers
addi s2,a5,-819
addi s3,a5,-820
nop
_.L45:
lw a3,0(s4)
srai a7,a3,31
add t4,zero,a7
bge a7,zero,_.L35
sltu a5,zero,a3
sub t4,zero,a7
sub t4,t4,a5
sub a3,zero,a3
nop
nop
_.L35:
addi a2,sp,31
li a0,24
li a6,5
nop
_.L57:
add a5,a3,t4
sltu a4,a5,a3
.option rvc
add a5,a5,a4
remu a5,a5,a6
add a1,zero,t4
addi a2,a2,-1
add t1,zero,a3
sub a5,a3,a5
sltu a4,a3,a5
sub a4,t4,a4
add t3,zero,a0
mul t5,a5,s3
mul a4,a4,s2
mulhu t4,a5,s2
add a4,a4,t5
mul a5,a5,s2
add a4,a4,t4
slli t5,a4,31
srli t4,a4,1
srli a5,a5,1
or a5,a5,t5
slli a4,a5,2
add a4,a4,a5
slli a4,a4,1
sub a4,a3,a4
addi a4,a4,48
sb a4,1(a2)
addi a0,a0,-1
add a3,zero,a5
bne a1,zero,_.L57
.option norvc
li a5,9
bltu a5,t1,_.L57
bge a7,zero,_.L43
addi a5,t3,30
add a5,a5,sp
li a4,45
addi a0,t3,-2
sb a4,-24(a5)
_.L43:
.option rvc
addi a5,sp,8
li a1,24
.option norvc
sub a1,a1,a0
add a0,a0,a5
call put
.option rvc
addi s4,s4,4
li a1,1
la a0,_.LC0
call put
bne s1,s4,_.L45
j _.L46
_.L46:
lw ra,60(sp)
andi a0,s0,255
lw s0,56(sp)
lw s1,52(sp)
lw s2,48(sp)
lw s3,44(sp)
lw s4,40(sp)
.option norvc
lw s5,36(sp)
.option rvc
addi sp,sp,64
ret
_.L47:
add s1,zero,t3
j _.L21
_.L21:
sltu a5,zero,a5
.option norvc
add a4,a4,a5
bltu a4,a0,_.L30
nop
_.L24:
srai a5,s0,1
addi s2,a5,-1
beq a5,zero,_.L31
la s3,numbers
j _.L29
_.L31:
li a5,1
la s3,numbers
beq s0,a5,_.L34
_.L20:
.option rvc
li s0,0
j _.L46
.data
.zero 16
_.LC0:
.word 0xa
numbers:
.zero 16384
text:
