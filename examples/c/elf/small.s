# Answers the sum of sums below 10: a loop over small objects, which the second format reaches by the stack pointer.
	.text
	.globl	main
main:
	li	t0,3
	li	a5,0
	li	a6,10
	lui	a3,%hi(sum)
	lui	a2,%hi(sums)
.L2:
	lw	a4,%lo(sum)(a3)
	add	a4,a4,a5
	sw	a4,%lo(sum)(a3)
	lw	a1,%lo(sums)(a2)
	add	a1,a1,a4
	sw	a1,%lo(sums)(a2)
	addi	a5,a5,1
	bne	a5,a6,.L2
	mv	a0,a1
	ret
	.section	.sbss,"aw",@nobits
	.align	2
sum:
	.zero	4
sums:
	.zero	4
