	.file	"stack_protector.c"
	.option nopic
	.attribute arch, "rv32i2p1_m2p0_c2p0"
	.attribute unaligned_access, 0
	.attribute stack_align, 16
	.text
	.section	.text.unlikely.__stack_chk_fail,"ax",@progbits
	.globl	__stack_chk_fail
__stack_chk_fail:
	ebreak
	.globl	__stack_chk_guard
	.section	.srodata.__stack_chk_guard,"a"
	.align	2
__stack_chk_guard:
	.word	-749032249
	.ident	"GCC: (12.2.0-14+deb12u1+11+b2) 12.2.0"
