# stack.c as a source text.
.format 2
.sandbox 32768
.gate exit_with 0
.gate put 1
.gate get 2
start..first:
.option rvc
addi sp,sp,-32
.option norvc
add t2,zero,sp
.option rvc
li sp,0
sltu t1,zero,sp
mv sp,t2
la s0,start..table
la t0,start..data
la a2,start..first
slli t1,t1,4
lui a5,128
addi a5,a5,-48
add a2,a2,a5
start..entry:
lw s1,0(s0)
.option norvc
addi s0,s0,4
beqz s1,start..end
slli a4,s1,12
.option rvc
srli a4,a4,12
add a4,a4,t0
slli a3,s1,6
srli a3,a3,26
slli t2,s1,1
srli t2,t2,27
slli t2,t2,2
blt s1,zero,point..1..n2
point..1:
add s1,zero,sp
j start..word
start..word:
mv sp,a4
lw a5,0(sp)
add a5,a5,t0
.option norvc
sw a5,0(sp)
add a4,a4,t2
addi a3,a3,-1
bnez a3,start..word
mv sp,s1
j start..entry
point..1..n2:
.option rvc
add s1,zero,sp
j start..code
start..code:
mv sp,a4
.option norvc
lw a5,0(sp)
srl a5,a5,t1
.option rvc
slli a5,a5,16
srai a5,a5,12
add a5,a5,a2
sw a5,0(sp)
add a4,a4,t2
addi a3,a3,-1
bnez a3,start..code
mv sp,s1
j start..entry
start..end:
la a4,print
beq a4,a5,start..right
ebreak
start..right:
.option norvc
nop
nop
nop
call main
nop
nop
nop
call exit_with
add:
lw a5,0(a0)
nop
lw a4,8(a0)
add a4,a4,a5
lw a3,4(a0)
sltu a5,a4,a5
lw a2,12(a0)
add a3,a3,a2
add a5,a5,a3
sw a4,0(a0)
sw a5,4(a0)
li a0,0
ret
subtract:
lw a3,0(a0)
nop
lw a4,8(a0)
sub a4,a3,a4
lw a5,4(a0)
sltu a3,a3,a4
lw a2,12(a0)
sub a5,a5,a2
sub a5,a5,a3
sw a4,0(a0)
sw a5,4(a0)
li a0,0
ret
multiply:
lw a3,0(a0)
add a5,zero,a0
lw a2,12(a0)
mul a2,a2,a3
lw a1,8(a0)
mulhu a6,a3,a1
lw a4,4(a0)
mul a4,a4,a1
mul a3,a3,a1
sw a3,0(a5)
.option rvc
add a4,a4,a2
add a4,a4,a6
sw a4,4(a5)
li a0,0
ret
less:
lw a4,12(a0)
.option norvc
li a2,1
lw a5,4(a0)
li a3,0
blt a5,a4,_.L6
bne a4,a5,_.L7
j _.L8
_.L7:
.option rvc
li a2,0
li a3,0
j _.L6
_.L6:
sw a2,0(a0)
.option norvc
nop
sw a3,4(a0)
li a0,0
ret
_.L8:
lw a4,8(a0)
nop
lw a5,0(a0)
bltu a5,a4,_.L6
j _.L7
equal:
lw a5,0(a0)
nop
lw a2,8(a0)
xor a5,a5,a2
lw a4,4(a0)
nop
lw a3,12(a0)
xor a4,a4,a3
sw zero,4(a0)
or a5,a5,a4
sltiu a5,a5,1
sw a5,0(a0)
.option rvc
li a0,0
ret
shift:
lw a5,8(a0)
andi a5,a5,63
addi a3,a5,-32
j next..1
next..1:
blt a3,zero,_.L11
lw a4,0(a0)
.option norvc
li a5,0
sw a5,0(a0)
sll a4,a4,a3
sw a4,4(a0)
.option rvc
li a0,0
ret
_.L11:
lw a3,0(a0)
.option norvc
li a1,31
lw a4,4(a0)
sub a1,a1,a5
srli a2,a3,1
srl a2,a2,a1
sll a4,a4,a5
or a4,a4,a2
sll a5,a3,a5
sw a5,0(a0)
sw a4,4(a0)
li a0,0
ret
duplicate:
lw a2,0(a0)
add a5,zero,a0
lw a3,4(a0)
li a0,0
sw a2,8(a5)
nop
sw a3,12(a5)
nop
ret
drop:
.option rvc
li a0,0
ret
divide:
lw a2,8(a0)
.option norvc
nop
lw a3,12(a0)
or a5,a2,a3
beq a5,zero,_.L18
.option rvc
addi sp,sp,-16
sw s0,8(sp)
add s0,zero,a0
lw a1,4(s0)
lw a0,0(a0)
.option norvc
sw ra,12(sp)
nop
nop
nop
call __divdi3
sw a0,0(s0)
lw ra,12(sp)
sw a1,4(s0)
lw s0,8(sp)
li a0,0
.option rvc
addi sp,sp,16
ret
_.L18:
li a0,3
ret
remainder_of:
lw a2,8(a0)
.option norvc
nop
lw a3,12(a0)
or a5,a2,a3
beq a5,zero,_.L26
.option rvc
addi sp,sp,-16
sw s0,8(sp)
add s0,zero,a0
lw a1,4(s0)
lw a0,0(a0)
.option norvc
sw ra,12(sp)
nop
nop
nop
call __moddi3
sw a0,0(s0)
lw ra,12(sp)
sw a1,4(s0)
lw s0,8(sp)
li a0,0
.option rvc
addi sp,sp,16
ret
_.L26:
li a0,3
ret
swap:
lw a6,0(a0)
.option norvc
add a5,zero,a0
lw a7,4(a0)
nop
lw a2,8(a0)
nop
lw a3,12(a0)
li a0,0
sw a6,8(a5)
nop
sw a7,12(a5)
nop
sw a2,0(a5)
nop
sw a3,4(a5)
nop
ret
over:
lw a2,0(a0)
add a5,zero,a0
lw a3,4(a0)
li a0,0
sw a2,16(a5)
nop
sw a3,20(a5)
nop
ret
rotate:
lw a2,0(a0)
add a5,zero,a0
lw a3,4(a0)
nop
lw t1,8(a0)
nop
lw t2,12(a0)
nop
lw a6,16(a0)
nop
lw a7,20(a0)
li a0,0
sw t1,0(a5)
nop
sw t2,4(a5)
nop
sw a6,8(a5)
nop
sw a7,12(a5)
nop
sw a2,16(a5)
nop
sw a3,20(a5)
nop
ret
print:
lw t3,4(a0)
add t0,zero,t3
.option rvc
addi sp,sp,-48
.option norvc
sw ra,44(sp)
lw a3,0(a0)
bge t3,zero,_.L35
sltu a5,zero,a3
sub t0,zero,t3
sub t0,t0,a5
sub a3,zero,a3
_.L35:
lui a7,838861
addi a2,a7,-819
addi a1,sp,31
.option rvc
li a0,24
li t1,5
addi a7,a7,-820
j _.L46
_.L46:
add a5,a3,t0
sltu a4,a5,a3
add a5,a5,a4
remu a5,a5,t1
add a6,zero,t0
addi a1,a1,-1
add t4,zero,a3
sub a5,a3,a5
sltu a4,a3,a5
sub a4,t0,a4
add t5,zero,a0
mul t2,a5,a7
mul a4,a4,a2
mulhu t0,a5,a2
add a4,a4,t2
mul a5,a5,a2
add a4,a4,t0
slli t2,a4,31
srli t0,a4,1
srli a5,a5,1
or a5,a5,t2
slli a4,a5,2
add a4,a4,a5
slli a4,a4,1
sub a4,a3,a4
addi a4,a4,48
sb a4,1(a1)
addi a0,a0,-1
add a3,zero,a5
bne a6,zero,_.L46
.option norvc
li a5,9
bltu a5,t4,_.L46
bge t3,zero,_.L43
addi a5,t5,30
add a5,a5,sp
li a4,45
addi a0,t5,-2
sb a4,-24(a5)
_.L43:
.option rvc
addi a5,sp,8
li a1,24
.option norvc
sub a1,a1,a0
add a0,a0,a5
call put
li a1,1
la a0,_.LC0
call put
.option rvc
lw ra,44(sp)
li a0,0
addi sp,sp,48
ret
main:
addi sp,sp,-32
.option norvc
lui a1,4
la a0,text
.option rvc
sw s0,24(sp)
sw s1,20(sp)
.option norvc
sw s2,16(sp)
.option rvc
sw s3,12(sp)
sw ra,28(sp)
la s3,text
call get
add a5,s3,a0
sb zero,0(a5)
.option norvc
add s0,zero,s3
li s1,32
li s2,8
nop
_.L50:
lbu a2,0(s0)
beq a2,s1,_.L51
addi a5,a2,-9
andi a5,a5,255
li a4,1
bgeu a4,a5,_.L51
beq a2,zero,_.L78
li a5,91
beq a2,a5,_.L109
li a5,93
beq a2,a5,_.L110
addi a6,a2,-48
andi a4,a6,255
li a5,9
bgeu a5,a4,_.L64
la a7,words
add a6,zero,a7
li a4,43
li a0,0
li t1,14
nop
_.L65:
lw a3,0(a6)
add a5,zero,s0
bne a4,zero,_.L67
j _.L68
_.L70:
lbu a4,0(a3)
beq a4,zero,_.L69
_.L67:
lbu a1,0(a5)
.option rvc
addi a3,a3,1
addi a5,a5,1
beq a1,a4,_.L70
j _.L68
_.L68:
addi a0,a0,1
addi a6,a6,16
bne a0,t1,_.L113
j _.L87
_.L113:
lw a5,0(a6)
.option norvc
nop
lbu a4,0(a5)
j _.L65
_.L51:
.option rvc
addi s0,s0,1
j _.L50
_.L69:
lbu a5,0(a5)
andi a4,a5,223
bne a4,zero,_.L111
j _.L76
_.L76:
.option norvc
slli a0,a0,4
lw a4,36(zero)
add a5,a7,a0
lw a3,4(a5)
la a1,depth
blt a4,a3,_.L112
sub a6,a4,a3
lw a0,8(a5)
li a7,256
add t1,a6,a0
j next..1..n2
next..1..n2:
blt a7,t1,_.L88
lw a2,12(a5)
slli a6,a6,3
sub a5,a0,a3
la a0,stack
add a5,a5,a4
sw a5,36(zero)
add a0,a0,a6
jalr ra,0(a2)
lbu a2,0(s0)
beq a2,zero,_.L72
_.L57:
.option rvc
li a5,10
j _.L75
_.L75:
bltu a5,a2,_.L73
bgeu s2,a2,_.L74
j _.L72
_.L74:
lbu a2,1(s0)
.option norvc
addi s0,s0,1
bne a2,zero,_.L75
j _.L72
_.L72:
beq a0,zero,_.L50
j _.L49
_.L73:
bne a2,s1,_.L74
beq a0,zero,_.L50
j _.L49
_.L109:
lw a5,36(zero)
la a1,depth
beq a5,zero,_.L79
addi a5,a5,-1
slli a3,a5,3
la a4,stack
add a4,a4,a3
li a0,0
lw a3,0(a4)
nop
lw a4,4(a4)
or a3,a3,a4
sw a5,36(zero)
bne a3,zero,_.L57
bltu s0,s3,_.L59
.option rvc
li a3,0
j _.L58
_.L60:
beq a3,zero,_.L82
addi s0,s0,1
bgeu s0,s3,_.L58
j _.L59
_.L58:
lbu a2,0(s0)
addi a5,a2,-91
addi a4,a2,-93
sltiu a5,a5,1
sltiu a4,a4,1
sub a5,a5,a4
add a3,a3,a5
bne a2,zero,_.L60
j _.L59
_.L59:
li a0,5
j _.L49
_.L49:
.option norvc
lw ra,28(sp)
lw s0,24(sp)
lw s1,20(sp)
lw s2,16(sp)
lw s3,12(sp)
.option rvc
addi sp,sp,32
ret
_.L112:
li a0,1
li a5,10
j _.L75
_.L64:
lw t3,36(zero)
li a5,256
beq t3,a5,_.L88
add a7,zero,s0
li a4,0
.option norvc
li a0,0
li t1,9
_.L66:
slli a5,a4,2
srli t5,a4,30
slli a1,a0,2
add a3,a5,a4
or a1,a1,t5
lbu t5,1(a7)
.option rvc
add a1,a1,a0
sltu a5,a3,a5
add a5,a5,a1
slli a4,a3,1
add a4,a4,a6
srli a3,a3,31
slli a5,a5,1
srai a1,a6,31
sltu a0,a4,a6
or a5,a5,a3
addi a6,t5,-48
.option norvc
add a5,a5,a1
andi a3,a6,255
addi a7,a7,1
add a0,a0,a5
bgeu t1,a3,_.L66
slli a3,t3,3
la a5,stack
.option rvc
add a5,a5,a3
addi t3,t3,1
sw a0,4(a5)
sw a4,0(a5)
li a0,0
li a5,10
sw t3,36(zero)
j _.L75
_.L111:
.option norvc
addi a5,a5,-9
andi a5,a5,255
li a4,1
bgeu a4,a5,_.L76
addi a0,a0,1
addi a6,a6,16
bne a0,t1,_.L113
nop
_.L87:
.option rvc
li a0,4
li a5,10
j _.L75
_.L79:
.option norvc
lw ra,28(sp)
lw s0,24(sp)
lw s1,20(sp)
lw s2,16(sp)
.option rvc
lw s3,12(sp)
li a0,1
addi sp,sp,32
ret
_.L110:
bltu s0,s3,_.L59
li a2,0
j _.L62
_.L63:
beq a2,zero,_.L50
addi s0,s0,-1
bgeu s0,s3,_.L62
j _.L59
_.L62:
lbu a4,0(s0)
addi a5,a4,-91
addi a3,a4,-93
sltiu a5,a5,1
sltiu a3,a3,1
sub a5,a5,a3
add a2,a2,a5
bne a4,zero,_.L63
j _.L59
_.L88:
li a0,2
li a5,10
j _.L75
_.L78:
li a0,0
j _.L49
_.L82:
li a0,0
li a5,10
j _.L75
long_divided..1:
bne a3,zero,_.L2..1
bne a2,zero,_.L3..1
beq a4,zero,_.L19..1
.option norvc
nop
ret
_.L3..1:
divu t3,a1,a2
.option rvc
add a7,zero,a2
remu a5,a1,a2
j _.L5..1
_.L2..1:
srli a5,a1,1
.option norvc
add a7,zero,a3
li t3,0
nop
_.L5..1:
.option rvc
addi sp,sp,-32
sw s0,28(sp)
sw s1,24(sp)
sw s2,20(sp)
sw s3,16(sp)
.option norvc
sw s4,12(sp)
sw s5,8(sp)
li t1,0
_.L6..1:
srli a6,a7,28
bne a6,zero,_.L8..1
.option rvc
addi t1,t1,4
slli a7,a7,4
j _.L6..1
_.L8..1:
blt a7,zero,_.L27..1
addi t1,t1,1
slli a7,a7,1
j _.L8..1
_.L27..1:
.option norvc
li t0,31
srli a6,a0,1
sub t0,t0,t1
beq a3,zero,_.L10..1
srli t2,a2,1
srl t2,t2,t0
or a7,a7,t2
slli t2,a1,31
or t2,t2,a6
j _.L11..1
_.L10..1:
sll a5,a5,t1
srl a6,a6,t0
or a5,a5,a6
sll t2,a0,t1
_.L11..1:
slli s4,a7,16
srli s3,a7,16
srli s4,s4,16
.option rvc
li a6,0
li s0,2
_.L15..1:
divu s2,a5,s3
remu s5,a5,s3
srli a5,t2,16
mul s1,s2,s4
slli s5,s5,16
or a5,a5,s5
add s5,zero,s2
bgeu a5,s1,_.L12..1
addi s5,s2,-1
add a5,a5,a7
bltu a5,a7,_.L12..1
bgeu a5,s1,_.L12..1
addi s5,s2,-2
add a5,a5,a7
_.L12..1:
slli a6,a6,16
addi s0,s0,-1
sub a5,a5,s1
or a6,a6,s5
slli t2,t2,16
bne s0,zero,_.L15..1
beq a3,zero,_.L16..1
srl t0,a6,t0
sltu a6,zero,t0
sub a6,t0,a6
mul a7,a2,a6
mulhu t1,a2,a6
sub a7,a0,a7
sltu a0,a0,a7
mul a5,a6,a3
.option norvc
add a5,a5,t1
sub a5,a1,a5
sub a5,a5,a0
.option rvc
add a1,zero,a5
add a0,zero,a7
bltu a5,a3,_.L17..1
bne a3,a5,_.L21..1
bltu a7,a2,_.L17..1
_.L21..1:
sub a0,a7,a2
sltu a7,a7,a0
sub a5,a5,a3
sub a1,a5,a7
addi a6,a6,1
j _.L17..1
_.L16..1:
srl a0,a5,t1
li a1,0
j _.L17..1
_.L17..1:
bne a4,zero,_.L4..1
add a0,zero,a6
add a1,zero,t3
j _.L4..1
_.L19..1:
li a0,-1
li a1,-1
ret
_.L4..1:
.option norvc
lw s0,28(sp)
lw s1,24(sp)
lw s2,20(sp)
lw s3,16(sp)
.option rvc
lw s4,12(sp)
lw s5,8(sp)
addi sp,sp,32
ret
divided..1:
or a5,a1,a3
bne a5,zero,_.L29..1
beq a2,zero,_.L29..1
beq a4,zero,_.L31..1
remu a0,a0,a2
li a1,0
j next..1..n3
next..1..n3:
ret
_.L29..1:
j long_divided..1
_.L31..1:
divu a0,a0,a2
li a1,0
j next..1..n4
next..1..n4:
ret
signed_divided..1:
or t3,a1,a3
bge t3,zero,_.L38..1
.option norvc
nop
nop
.option rvc
addi sp,sp,-32
sw s2,16(sp)
sw s3,12(sp)
srai s2,a3,31
srai s3,a1,31
xor t1,a2,s2
xor a7,a0,s3
sub a2,t1,s2
sub a0,a7,s3
xor a3,a3,s2
xor a1,a1,s3
sltu t1,t1,a2
sltu a7,a7,a0
sub a3,a3,s2
sub a1,a1,s3
sub a3,a3,t1
sub a1,a1,a7
.option norvc
sw s0,24(sp)
sw s1,20(sp)
sw ra,28(sp)
add s1,zero,a4
nop
call divided..1
.option rvc
add s0,zero,s3
add a4,zero,s3
bne s1,zero,_.L35..1
xor s0,s3,s2
.option norvc
add a4,zero,s0
_.L35..1:
xor a5,a0,s0
sub a0,a5,s0
.option rvc
lw ra,28(sp)
lw s0,24(sp)
.option norvc
xor a1,a1,a4
sltu a5,a5,a0
.option rvc
sub a1,a1,a4
lw s1,20(sp)
.option norvc
lw s2,16(sp)
lw s3,12(sp)
sub a1,a1,a5
.option rvc
addi sp,sp,32
ret
_.L38..1:
j divided..1
__divdi3:
li a4,0
j signed_divided..1
__moddi3:
li a4,1
j signed_divided..1
.data
start..data:
.zero 32
_.LC0:
.word 0xa
depth:
.word 0x0,0x2b,0x2d,0x2a,0x2f,0x25
.word 0x3c,0x3d,0x3c3c,0x707564,0x706f7264,0x0
.word 0x70617773,0x0,0x7265766f,0x0,0x746f72,0x2e
words:
.word 0x28,0x2,0x1,0x80178017,0x2c,0x2
.word 0x1,0x801e801e,0x30,0x2,0x1,0x80258025
.word 0x34,0x2,0x1,0x804f804f,0x38,0x2
.word 0x1,0x805a805d,0x3c,0x2,0x1,0x802c802c
.word 0x40,0x2,0x1,0x80368036,0x44,0x2
.word 0x1,0x803d803d,0x48,0x1,0x2,0x80498049
.word 0x4c,0x1,0x0,0x804e804e,0x54,0x2
.word 0x2,0x8065806b,0x5c,0x2,0x3,0x806e8074
.word 0x64,0x3,0x3,0x80738079,0x68,0x1
.word 0x0,0x80808086
start..table:
.word 0x10e0006c,0x90e00078,0x0
stack:
.zero 2048
text:
