# Code on which each pass has something to do. test_validate.py plants mistakes in them.
	.text
	.globl	known
	.type	known, @function
known:
	lui	a5,%hi(small)
	addi	a5,a5,%lo(small)
	addi	a4,a5,4
	lw	a0,0(a4)
	beqz	a1,.L1
	addi	a5,a5,8
.L1:
	lw	a2,0(a5)
	add	a0,a0,a2
	ret

	.globl	calling
	.type	calling, @function
calling:
	addi	sp,sp,-16
	sw	ra,12(sp)
	lui	a0,%hi(large)
	addi	a0,a0,%lo(large)
	call	elsewhere
	lui	a5,%hi(small)
	addi	a5,a5,%lo(small)
	call	elsewhere
	sw	a0,0(a5)
	lw	ra,12(sp)
	addi	sp,sp,16
	ret

# A base that a loop doesn't change.
	.globl	constant
	.type	constant, @function
constant:
	li	a3,0
.L2:
	lw	a2,0(a0)
	add	a3,a3,a2
	sw	a3,4(a0)
	addi	a1,a1,-1
	bnez	a1,.L2
	mv	a0,a3
	ret

# A pointer that is read where its loop is left, by two ways.
	.globl	pointer
	.type	pointer, @function
pointer:
	mv	a5,a0
.L3:
	lw	a2,0(a5)
	beq	a2,a1,.L4
	addi	a5,a5,4
	bnez	a2,.L3
	sub	a0,a5,a0
	ret
.L4:
	mv	a0,a5
	ret

# Accesses on sums of registers that a loop steps.
	.globl	derived
	.type	derived, @function
derived:
	li	a4,0
	li	a3,0
.L5:
	slli	a5,a4,2
	add	a5,a0,a5
	lw	a2,0(a5)
	add	a3,a3,a2
	addi	a4,a4,1
	bne	a4,a1,.L5
	mv	a0,a3
	ret

	.globl	backward
	.type	backward, @function
backward:
	li	a4,0
	li	a3,0
.L6:
	sub	a5,a0,a4
	lbu	a2,0(a5)
	add	a3,a3,a2
	addi	a4,a4,1
	bne	a4,a1,.L6
	mv	a0,a3
	ret

# Bases that are accessed again, after sums, over blocks, and where two ways come together.
	.globl	sharing
	.type	sharing, @function
sharing:
	lw	a2,0(a0)
	lw	a3,4(a0)
	addi	a4,a0,16
	lw	a5,0(a4)
	add	a2,a2,a3
	add	a2,a2,a5
	lw	a6,8(a4)
	beqz	a6,.L7
	addi	a0,a0,4
	sw	a2,0(a0)
.L7:
	sw	a3,8(a0)
	sw	a6,12(a0)
	lw	a0,20(a4)
	ret

	.globl	looking
	.type	looking, @function
looking:
	lw	a2,0(a0)
	lw	a3,4(a0)
.L8:
	lw	a3,0(a0)
	sw	a2,4(a0)
	lw	a0,8(a0)
	call	nearby
	bnez	a0,.L8
	tail	elsewhere

	.type	nearby, @function
nearby:
	ret

	.globl	chain
	.type	chain, @function
chain:
	lw	a5,0(a0)
	lw	a4,4(a5)
	lw	a3,8(a5)
	add	a0,a4,a3
	add	a0,a0,a5
	ret

# Steps that move to accesses beside them or before them.
	.globl	steps
	.type	steps, @function
steps:
	li	a6,0
.L9:
	lw	a2,0(a0)
	lbu	a3,4(a0)
	addi	a4,a0,2
	addi	a0,a0,8
	add	a6,a6,a4
	beqz	a2,.L10
	sw	a3,-4(a0)
	addi	a6,a6,1
.L10:
	add	a6,a6,a3
	bne	a6,a1,.L9
	mv	a0,a6
	ret

	.globl	raised
	.type	raised, @function
raised:
	li	a6,0
.L11:
	lw	a2,0(a0)
	beqz	a2,.L12
	addi	a3,a0,4
	add	a6,a6,a3
	addi	a0,a0,4
	j	.L13
.L12:
	addi	a6,a6,2
	addi	a0,a0,8
.L13:
	bne	a6,a1,.L11
	mv	a0,a6
	ret

# Accesses whose order matters, and results that are needed in order.
	.globl	order
	.type	order, @function
order:
	addi	sp,sp,-32
	sw	s0,28(sp)
	sw	a1,8(sp)
	lw	a2,0(a0)
	lw	a3,8(sp)
	sw	a2,0(a1)
	lw	a4,0(a0)
	add	a2,a2,a3
	sub	a3,a4,a3
	mv	a4,a2
	sll	a2,a3,a2
	add	a0,a2,a4
	sw	a0,12(sp)
	lw	a5,12(sp)
	lw	s0,28(sp)
	add	a0,a0,a5
	addi	sp,sp,32
	ret

	.globl	copying
	.type	copying, @function
copying:
	lw	a2,0(a0)
	sw	a2,0(a1)
	lw	a3,4(a0)
	sw	a3,4(a1)
	lw	a4,8(a0)
	sw	a4,8(a1)
	addi	a0,a0,12
	lw	a5,0(a0)
	sw	a5,12(a1)
	lw	a6,4(a0)
	sw	a6,16(a1)
	add	a0,a6,a5
	ret

	.globl	filling
	.type	filling, @function
filling:
	mv	a5,a0
.L14:
	sw	a1,0(a5)
	sw	a2,4(a5)
	sw	a1,8(a5)
	sw	a2,12(a5)
	addi	a5,a5,16
	beqz	a1,.L15
	bne	a5,a3,.L14
	ret
.L15:
	lw	a0,0(sp)
	add	a0,a0,a5
	ret

	.section	.sdata,"aw"
	.align	2
	.globl	small
	.type	small, @object
	.size	small, 16
small:
	.word	1, 2, 3, 4
	.data
	.align	2
	.globl	large
	.type	large, @object
	.size	large, 400
large:
	.zero	400

# How far a pointer has moved in a loop is multiplied after it.
        .section .text.scaled,"ax"
        .globl scaled
scaled:
.Lback:
        lbu t0, -1(a0)
        addi a0, a0, -1
        beq t0, a3, .Lback
        sub a0, a0, a1
        slli a0, a0, 2
        add a0, a2, a0
        lw a0, 0(a0)
        ret

# Three bases, two of which have data registers: the address of the third stays masked over accesses on these.
        .section .text.repeated,"ax"
        .globl repeated
repeated:
        lw a4, 0(a0)
        lw a5, 0(a1)
        lw a6, 0(a2)
        lw t0, 4(a0)
        lw t1, 4(a1)
        lw t2, 4(a2)
        add a2, a2, t2
        lw t3, 0(a2)
        add a4, a4, a5
        add a6, a6, t0
        add t1, t1, t2
        add a4, a4, t3
        add a4, a4, a6
        add a0, a4, t1
        ret

# A base that is accessed before a loop and in it, and changes on one of the ways back; a copy of it is accessed, too.
        .section .text.around,"ax"
        .globl around
around:
        lw a4, 0(a0)
        beqz a4, .L40
        lw a5, 4(a0)
        add a4, a4, a5
.L40:
        lw a5, 8(a0)
        mv a2, a0
        add a4, a4, a5
        addi a1, a1, -1
        lw a3, 16(a2)
        beqz a1, .L41
        bltz a4, .L40
        lw a0, 12(a0)
        add a4, a4, a3
        j .L40
.L41:
        mv a0, a4
        ret

# What gcc makes of an access by a null pointer, and one of its parts.
        .section .text.null,"ax"
        .globl null
null:
        beqz a1, .L50
        sw a0, 0(zero)
        ebreak
.L50:
        sw zero, 4(zero)
        ebreak
