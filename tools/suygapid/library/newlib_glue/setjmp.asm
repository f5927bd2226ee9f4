# setjmp and longjmp: the registers that a call leaves as they are, but for the sandbox's own, in the buffer's first words.
	.section	.text.setjmp,"ax",@progbits
	.globl	setjmp
setjmp:
	sw	ra,0(a0)
	sw	s0,4(a0)
	sw	s1,8(a0)
	sw	s2,12(a0)
	sw	s3,16(a0)
	sw	s4,20(a0)
	sw	s5,24(a0)
	sw	s6,28(a0)
	sw	s7,32(a0)
	mv	a5,sp
	sw	a5,36(a0)
	li	a0,0
	ret

	.section	.text.longjmp,"ax",@progbits
	.globl	longjmp
longjmp:
	lw	ra,0(a0)
	lw	s0,4(a0)
	lw	s1,8(a0)
	lw	s2,12(a0)
	lw	s3,16(a0)
	lw	s4,20(a0)
	lw	s5,24(a0)
	lw	s6,28(a0)
	lw	s7,32(a0)
	lw	a5,36(a0)
	mv	sp,a5
	seqz	a0,a1
	add	a0,a0,a1
	ret
