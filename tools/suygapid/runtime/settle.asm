	.file	"settle.c"
	.option nopic
	.attribute arch, "rv32i2p1_m2p0_c2p0"
	.attribute unaligned_access, 0
	.attribute stack_align, 16
	.text
	.section	.text.__sfi_settle,"ax",@progbits
	.globl	__sfi_settle
__sfi_settle:
	lui	a1,%hi(of_data)
	lui	a5,%hi(of_code)
	lw	a4,%lo(of_data)(a1)
	lw	a5,%lo(of_code)(a5)
	lui	t1,%hi(__sfi_settle)
	addi	a1,a1,%lo(of_data)
	addi	t1,t1,%lo(__sfi_settle)
	sub	a1,a1,a4
	sub	t1,t1,a5
	or	a5,a1,t1
	beq	a5,zero,.L1
	lui	a3,%hi(__sfi_places)
	lui	a7,%hi(__sfi_places_end)
	addi	a5,a3,%lo(__sfi_places)
	addi	a7,a7,%lo(__sfi_places_end)
	beq	a5,a7,.L1
	addi	a4,a3,%lo(__sfi_places)
	addi	a3,a3,%lo(__sfi_places)
	j	.L6
.L13:
	addi	a4,a4,1
	addi	a3,a3,-508
	beq	a4,a7,.L1
.L6:
	lbu	a5,0(a4)
	mv	a0,a1
	andi	a2,a5,127
	slli	a5,a5,24
	slli	a6,a2,2
	srai	a5,a5,24
	beq	a2,zero,.L13
	sub	a3,a3,a6
	lw	a2,0(a3)
	bge	a5,zero,.L5
	mv	a0,t1
.L5:
	add	a5,a2,a0
	sw	a5,0(a3)
	addi	a4,a4,1
	bne	a4,a7,.L6
.L1:
	ret
	.section	.sdata.of_code,"aw"
	.align	2
of_code:
	.word	__sfi_settle
	.section	.sdata.of_data,"aw"
	.align	2
of_data:
	.word	of_data
	.ident	"GCC: (12.2.0-14+deb12u1+11+b2) 12.2.0"
