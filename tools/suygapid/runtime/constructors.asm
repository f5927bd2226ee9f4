	.file	"constructors.c"
	.option nopic
	.attribute arch, "rv32i2p1_m2p0_c2p0"
	.attribute unaligned_access, 0
	.attribute stack_align, 16
	.text
	.section	.text.__sfi_begin,"ax",@progbits
	.globl	__sfi_begin
__sfi_begin:
	addi	sp,sp,-16
	sw	s0,8(sp)
	sw	s1,4(sp)
	lui	s0,%hi(__preinit_array_start)
	lui	s1,%hi(__preinit_array_end)
	sw	ra,12(sp)
	sw	s2,0(sp)
	addi	a5,s0,%lo(__preinit_array_start)
	addi	s1,s1,%lo(__preinit_array_end)
	bgeu	a5,s1,.L2
	addi	s0,s0,%lo(__preinit_array_start)
.L3:
	lw	a5,0(s0)
	addi	s0,s0,4
	jalr	a5
	bltu	s0,s1,.L3
.L2:
	lui	s0,%hi(__fini_array_start)
	lui	s1,%hi(__fini_array_end)
	addi	a5,s0,%lo(__fini_array_start)
	addi	s1,s1,%lo(__fini_array_end)
	bgeu	a5,s1,.L4
	lui	s2,%hi(atexit)
	addi	s0,s0,%lo(__fini_array_start)
	addi	s2,s2,%lo(atexit)
.L6:
	beq	s2,zero,.L5
	lw	a0,0(s0)
	call	atexit
.L5:
	addi	s0,s0,4
	bltu	s0,s1,.L6
.L4:
	lui	s0,%hi(__init_array_start)
	lui	s1,%hi(__init_array_end)
	addi	a5,s0,%lo(__init_array_start)
	addi	s1,s1,%lo(__init_array_end)
	bgeu	a5,s1,.L1
	addi	s0,s0,%lo(__init_array_start)
.L8:
	lw	a5,0(s0)
	addi	s0,s0,4
	jalr	a5
	bltu	s0,s1,.L8
.L1:
	lw	ra,12(sp)
	lw	s0,8(sp)
	lw	s1,4(sp)
	lw	s2,0(sp)
	addi	sp,sp,16
	jr	ra
	.globl	__sfi_begin_wanted
	.section	.srodata.__sfi_begin_wanted,"a"
__sfi_begin_wanted:
	.zero	1
	.weak	atexit
	.ident	"GCC: (12.2.0-14+deb12u1+11+b2) 12.2.0"
