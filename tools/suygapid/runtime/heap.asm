	.file	"heap.c"
	.option nopic
	.attribute arch, "rv32i2p1_m2p0_c2p0"
	.attribute unaligned_access, 0
	.attribute stack_align, 16
	.text
	.section	.text.__heap_more,"ax",@progbits
	.globl	__heap_more
__heap_more:
	lui	a2,%hi(__heap_end)
	lw	a3,%lo(__heap_end)(a2)
	lui	a4,%hi(__sfi_end)
	lui	a5,%hi(__heap_size)
	addi	a4,a4,%lo(__sfi_end)
	lw	a6,%lo(__heap_size)(a5)
	sub	a1,a3,a4
 #APP
# 13 "../../tools/suygapid/runtime/heap.c" 1
	mv a5, sp
# 0 "" 2
 #NO_APP
	ble	a0,zero,.L2
	sub	a5,a5,a4
	bgtu	a5,a6,.L10
	bgtu	a1,a5,.L8
.L11:
	sub	a5,a5,a1
	bltu	a5,a0,.L8
.L5:
	add	a0,a3,a0
	sw	a0,%lo(__heap_end)(a2)
	mv	a0,a3
	ret
.L10:
	mv	a5,a6
	bleu	a1,a5,.L11
	j	.L8
.L2:
	neg	a5,a0
	bleu	a5,a1,.L5
.L8:
	li	a3,0
	mv	a0,a3
	ret
	.globl	__heap_size
	.section	.sdata.__heap_size,"aw"
	.align	2
__heap_size:
	.word	1
	.globl	__heap_end
	.section	.sdata.__heap_end,"aw"
	.align	2
__heap_end:
	.word	__sfi_end
	.ident	"GCC: (12.2.0-14+deb12u1+11+b2) 12.2.0"
