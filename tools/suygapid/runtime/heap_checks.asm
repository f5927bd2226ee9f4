	.file	"heap_checks.c"
	.option nopic
	.attribute arch, "rv32i2p1_m2p0_c2p0"
	.attribute unaligned_access, 0
	.attribute stack_align, 16
	.text
	.section	.text.place_in,"ax",@progbits
place_in:
.LFB12:
	.cfi_startproc
	add	a3,a0,a2
	addi	a3,a3,31
	neg	a5,a2
	and	a3,a3,a5
	mv	a4,a0
	addi	a0,a3,-32
	mv	a7,a4
 #APP
# 121 "../../tools/suygapid/runtime/heap_checks.c" 1
	mv t1, sp
# 0 "" 2
 #NO_APP
	beq	a0,a4,.L2
	sub	a5,a0,a4
	li	a6,31
	bgtu	a5,a6,.L5
	addi	a5,a2,-32
	add	a5,a5,a3
	j	.L3
.L12:
	add	a0,a5,a2
	bgtu	a3,a6,.L11
	mv	a5,a0
.L3:
	sub	a3,a5,a4
	bne	a4,a5,.L12
.L2:
	lw	a5,0(a4)
	add	a1,a1,a7
	li	a0,0
	add	a4,a4,a5
	bgtu	a1,a4,.L1
	bleu	a1,a7,.L1
	addi	a0,a1,32
	sgtu	a0,a0,t1
	addi	a0,a0,-1
	and	a0,a7,a0
.L1:
	ret
.L11:
	mv	a7,a5
	j	.L2
.L5:
	mv	a7,a0
	j	.L2
	.cfi_endproc
.LFE12:
	.section	.text.found_from,"ax",@progbits
found_from:
.LFB14:
	.cfi_startproc
	addi	sp,sp,-32
	.cfi_def_cfa_offset 32
	lui	a5,%hi(__heap_size)
	sw	s1,20(sp)
	.cfi_offset 9, -12
	lw	s1,%lo(__heap_size)(a5)
	lui	a5,%hi(__sfi_end)
	addi	a5,a5,%lo(__sfi_end)
	andi	s1,s1,-16
	sw	ra,28(sp)
	sw	s0,24(sp)
	sw	s2,16(sp)
	sw	s3,12(sp)
	sw	s4,8(sp)
	.cfi_offset 1, -4
	.cfi_offset 8, -8
	.cfi_offset 18, -16
	.cfi_offset 19, -20
	.cfi_offset 20, -24
	add	s1,s1,a5
	bgeu	a0,s1,.L17
	li	s2,1718771712
	mv	s0,a0
	mv	s3,a1
	mv	s4,a2
	addi	s2,s2,1381
	j	.L14
.L20:
	add	s0,s0,a4
	bgeu	s0,s1,.L17
.L14:
	lw	a5,0(s0)
	lw	a3,8(s0)
	mv	a4,a5
	bne	a3,s2,.L20
	add	a4,s0,a5
	bgeu	a4,s1,.L19
.L33:
	lw	a3,8(a4)
	bne	a3,s2,.L32
	lw	a4,0(a4)
	add	a5,a5,a4
	sw	a5,0(s0)
	add	a4,s0,a5
	bltu	a4,s1,.L33
.L19:
	mv	a2,s4
	mv	a1,s3
	mv	a0,s0
	call	place_in
	beq	a0,zero,.L17
.L23:
	lw	ra,28(sp)
	.cfi_remember_state
	.cfi_restore 1
	mv	a0,s0
	lw	s0,24(sp)
	.cfi_restore 8
	lw	s1,20(sp)
	.cfi_restore 9
	lw	s2,16(sp)
	.cfi_restore 18
	lw	s3,12(sp)
	.cfi_restore 19
	lw	s4,8(sp)
	.cfi_restore 20
	addi	sp,sp,32
	.cfi_def_cfa_offset 0
	jr	ra
.L32:
	.cfi_restore_state
	mv	a2,s4
	mv	a1,s3
	mv	a0,s0
	call	place_in
	bne	a0,zero,.L23
	lw	a4,0(s0)
	j	.L20
.L17:
	li	s0,0
	j	.L23
	.cfi_endproc
.LFE14:
	.section	.rodata.say_address.str1.4,"aMS",@progbits,1
	.align	2
.LC0:
	.string	"0123456789abcdef"
	.section	.text.say_address,"ax",@progbits
say_address:
.LFB5:
	.cfi_startproc
	addi	sp,sp,-32
	.cfi_def_cfa_offset 32
	lui	a2,%hi(.LC0)
	sw	s0,24(sp)
	sw	ra,28(sp)
	.cfi_offset 8, -8
	.cfi_offset 1, -4
	mv	s0,a0
	addi	a3,sp,8
	li	a4,28
	addi	a2,a2,%lo(.LC0)
	li	a6,-4
.L35:
	srl	a5,a1,a4
	andi	a5,a5,15
	add	a5,a2,a5
	lbu	a5,0(a5)
	addi	a4,a4,-4
	addi	a3,a3,1
	sb	a5,-1(a3)
	bne	a4,a6,.L35
	mv	a0,s0
	call	strlen
	mv	a1,a0
	mv	a0,s0
	call	put
	addi	a0,sp,8
	li	a1,8
	call	put
	lw	ra,28(sp)
	.cfi_restore 1
	lw	s0,24(sp)
	.cfi_restore 8
	addi	sp,sp,32
	.cfi_def_cfa_offset 0
	jr	ra
	.cfi_endproc
.LFE5:
	.section	.rodata.stop.str1.4,"aMS",@progbits,1
	.align	2
.LC1:
	.string	"\nmalloc: "
	.align	2
.LC2:
	.string	" at "
	.align	2
.LC3:
	.string	", taken by the call before "
	.align	2
.LC4:
	.string	", freed by that before "
	.align	2
.LC5:
	.string	"; found by that before "
	.align	2
.LC6:
	.string	"\n"
	.section	.text.stop,"ax",@progbits
stop:
.LFB6:
	.cfi_startproc
	addi	sp,sp,-32
	.cfi_def_cfa_offset 32
	sw	s4,8(sp)
	.cfi_offset 20, -24
	lui	s4,%hi(.LC1)
	sw	s2,16(sp)
	.cfi_offset 18, -16
	mv	s2,a0
	addi	a0,s4,%lo(.LC1)
	sw	ra,28(sp)
	sw	s0,24(sp)
	sw	s1,20(sp)
	.cfi_offset 1, -4
	.cfi_offset 8, -8
	.cfi_offset 9, -12
	mv	s0,a2
	mv	s1,a3
	sw	s3,12(sp)
	.cfi_offset 19, -20
	mv	s3,a1
	call	strlen
	mv	a1,a0
	addi	a0,s4,%lo(.LC1)
	call	put
	mv	a0,s2
	call	strlen
	mv	a1,a0
	mv	a0,s2
	call	put
	lui	a0,%hi(.LC2)
	mv	a1,s3
	addi	a0,a0,%lo(.LC2)
	call	say_address
	beq	s0,zero,.L40
	lw	a1,12(s0)
	lui	a0,%hi(.LC3)
	addi	a0,a0,%lo(.LC3)
	call	say_address
	lw	a4,8(s0)
	li	a5,2002874368
	addi	a5,a5,-1676
	beq	a4,a5,.L43
.L40:
	lui	a0,%hi(.LC5)
	mv	a1,s1
	addi	a0,a0,%lo(.LC5)
	call	say_address
	lui	s0,%hi(.LC6)
	addi	a0,s0,%lo(.LC6)
	call	strlen
	mv	a1,a0
	addi	a0,s0,%lo(.LC6)
	call	put
 #APP
# 77 "../../tools/suygapid/runtime/heap_checks.c" 1
	mv ra, s1
	ebreak
# 0 "" 2
 #NO_APP
	lw	ra,28(sp)
	.cfi_remember_state
	.cfi_restore 1
	lw	s0,24(sp)
	.cfi_restore 8
	lw	s1,20(sp)
	.cfi_restore 9
	lw	s2,16(sp)
	.cfi_restore 18
	lw	s3,12(sp)
	.cfi_restore 19
	lw	s4,8(sp)
	.cfi_restore 20
	addi	sp,sp,32
	.cfi_def_cfa_offset 0
	jr	ra
.L43:
	.cfi_restore_state
	lw	a1,16(s0)
	lui	a0,%hi(.LC4)
	addi	a0,a0,%lo(.LC4)
	call	say_address
	j	.L40
	.cfi_endproc
.LFE6:
	.section	.rodata.look_at.str1.4,"aMS",@progbits,1
	.align	2
.LC7:
	.string	"something was written after it was freed into the block"
	.align	2
.LC8:
	.string	"something was written behind the block"
	.align	2
.LC9:
	.string	"something was written before the block"
	.section	.text.look_at,"ax",@progbits
look_at:
.LFB8:
	.cfi_startproc
	addi	sp,sp,-32
	.cfi_def_cfa_offset 32
	sw	s2,16(sp)
	lw	a3,8(a0)
	.cfi_offset 18, -16
	lw	s2,4(a0)
	li	a4,1718771712
	sw	s0,24(sp)
	sw	ra,28(sp)
	.cfi_offset 8, -8
	.cfi_offset 1, -4
	addi	s0,a0,32
	sw	s1,20(sp)
	sw	s3,12(sp)
	.cfi_offset 9, -12
	.cfi_offset 19, -20
	addi	a4,a4,1381
	add	s2,s0,s2
	beq	a3,a4,.L44
	mv	s1,a0
	mv	s3,a1
	addi	a5,a0,24
	li	a2,251
.L47:
	beq	a5,s0,.L58
	lbu	a4,0(a5)
	addi	a5,a5,1
	beq	a4,a2,.L47
	lui	a0,%hi(.LC9)
	mv	a3,s3
	mv	a2,s1
	mv	a1,s0
	addi	a0,a0,%lo(.LC9)
	call	stop
.L58:
	lw	a2,0(s1)
	mv	a5,s2
	li	a0,251
	add	a2,s1,a2
.L50:
	bgeu	a5,a2,.L57
	lbu	a4,0(a5)
	addi	a5,a5,1
	beq	a4,a0,.L50
	lui	a0,%hi(.LC8)
	mv	a3,s3
	mv	a2,s1
	mv	a1,s0
	addi	a0,a0,%lo(.LC8)
	call	stop
.L57:
	lw	a4,8(s1)
	li	a5,2002874368
	addi	a5,a5,-1676
	beq	a4,a5,.L63
.L44:
	lw	ra,28(sp)
	.cfi_remember_state
	.cfi_restore 1
	lw	s0,24(sp)
	.cfi_restore 8
	lw	s1,20(sp)
	.cfi_restore 9
	lw	s2,16(sp)
	.cfi_restore 18
	lw	s3,12(sp)
	.cfi_restore 19
	addi	sp,sp,32
	.cfi_def_cfa_offset 0
	jr	ra
.L63:
	.cfi_restore_state
	mv	a5,s0
	li	a3,221
.L53:
	bleu	s2,a5,.L44
	lbu	a4,0(a5)
	addi	a5,a5,1
	beq	a4,a3,.L53
	mv	a1,s0
	lw	s0,24(sp)
	.cfi_restore 8
	lw	ra,28(sp)
	.cfi_restore 1
	lw	s2,16(sp)
	.cfi_restore 18
	mv	a3,s3
	mv	a2,s1
	lw	s3,12(sp)
	.cfi_restore 19
	lw	s1,20(sp)
	.cfi_restore 9
	lui	a0,%hi(.LC7)
	addi	a0,a0,%lo(.LC7)
	addi	sp,sp,32
	.cfi_def_cfa_offset 0
	tail	stop
	.cfi_endproc
.LFE8:
	.section	.rodata.block_of.str1.4,"aMS",@progbits,1
	.align	2
.LC10:
	.string	"there is no block"
	.align	2
.LC11:
	.string	"freed again is the block"
	.align	2
.LC12:
	.string	"there is no block, or something was written before it,"
	.section	.text.block_of,"ax",@progbits
block_of:
.LFB21:
	.cfi_startproc
	addi	sp,sp,-16
	.cfi_def_cfa_offset 16
	sw	s0,8(sp)
	sw	s1,4(sp)
	sw	s2,0(sp)
	sw	ra,12(sp)
	.cfi_offset 8, -8
	.cfi_offset 9, -12
	.cfi_offset 18, -16
	.cfi_offset 1, -4
	andi	a5,a0,15
	mv	s0,a0
	mv	s1,a1
	addi	s2,a0,-32
	bne	a5,zero,.L65
	lui	a5,%hi(__sfi_end)
	addi	a5,a5,%lo(__sfi_end)
	bgeu	s2,a5,.L71
.L65:
	lui	a0,%hi(.LC10)
	mv	a3,s1
	li	a2,0
	mv	a1,s0
	addi	a0,a0,%lo(.LC10)
	call	stop
	lw	a4,-24(s0)
	li	a5,2002874368
	addi	a5,a5,-1676
	beq	a4,a5,.L72
.L67:
	li	a5,1970495488
	addi	a5,a5,1380
	beq	a4,a5,.L68
	lui	a0,%hi(.LC12)
	mv	a3,s1
	li	a2,0
	mv	a1,s0
	addi	a0,a0,%lo(.LC12)
	call	stop
.L68:
	mv	a0,s2
	mv	a1,s1
	call	look_at
	lw	ra,12(sp)
	.cfi_remember_state
	.cfi_restore 1
	lw	s0,8(sp)
	.cfi_restore 8
	lw	s1,4(sp)
	.cfi_restore 9
	mv	a0,s2
	lw	s2,0(sp)
	.cfi_restore 18
	addi	sp,sp,16
	.cfi_def_cfa_offset 0
	jr	ra
.L71:
	.cfi_restore_state
	lui	a4,%hi(__heap_size)
	lw	a4,%lo(__heap_size)(a4)
	andi	a4,a4,-16
	add	a5,a4,a5
	bgtu	a0,a5,.L65
	lui	a5,%hi(cursor)
	lw	a5,%lo(cursor)(a5)
	beq	a5,zero,.L65
	lw	a4,-24(s0)
	li	a5,2002874368
	addi	a5,a5,-1676
	bne	a4,a5,.L67
.L72:
	lui	a0,%hi(.LC11)
	mv	a3,s1
	mv	a2,s2
	mv	a1,s0
	addi	a0,a0,%lo(.LC11)
	call	stop
	lw	a4,-24(s0)
	j	.L67
	.cfi_endproc
.LFE21:
	.section	.text.give_back.part.0,"ax",@progbits
give_back.part.0:
.LFB40:
	.cfi_startproc
	addi	sp,sp,-32
	.cfi_def_cfa_offset 32
	sw	s1,20(sp)
	sw	s2,16(sp)
	sw	s3,12(sp)
	sw	s4,8(sp)
	sw	ra,28(sp)
	sw	s0,24(sp)
	sw	s5,4(sp)
	sw	s6,0(sp)
	.cfi_offset 9, -12
	.cfi_offset 18, -16
	.cfi_offset 19, -20
	.cfi_offset 20, -24
	.cfi_offset 1, -4
	.cfi_offset 8, -8
	.cfi_offset 21, -28
	.cfi_offset 22, -32
	mv	s4,a0
	mv	s1,a1
	call	block_of
	lui	a4,%hi(calls)
	lw	a5,%lo(calls)(a4)
	lui	a3,%hi(__heap_size)
	lw	s2,%lo(__heap_size)(a3)
	addi	a5,a5,1
	sw	a5,%lo(calls)(a4)
	andi	a5,a5,255
	mv	s3,a0
	beq	a5,zero,.L74
.L77:
	lw	a2,4(s3)
	li	a1,221
	mv	a0,s4
	call	memset
	lui	s6,%hi(oldest)
	li	a5,2002874368
	lw	a4,%lo(oldest)(s6)
	addi	a5,a5,-1676
	sw	a5,8(s3)
	sw	s1,16(s3)
	sw	zero,20(s3)
	beq	a4,zero,.L91
	lui	a4,%hi(youngest)
	lw	a5,%lo(youngest)(a4)
	sw	s3,20(a5)
.L80:
	lui	s5,%hi(waiting)
	lw	a3,%lo(waiting)(s5)
	lw	a5,0(s3)
	sw	s3,%lo(youngest)(a4)
	lui	s3,%hi(__sfi_end)
	add	a5,a5,a3
	sw	a5,%lo(waiting)(s5)
	srli	s2,s2,2
	lui	s4,%hi(cursor)
	addi	s3,s3,%lo(__sfi_end)
	j	.L81
.L82:
	lw	s0,%lo(oldest)(s6)
	mv	a0,s0
	call	look_at
	lw	a4,20(s0)
	lw	a5,%lo(waiting)(s5)
	lw	a3,0(s0)
	sw	a4,%lo(oldest)(s6)
	li	a4,1718771712
	sub	a5,a5,a3
	addi	a4,a4,1381
	sw	a5,%lo(waiting)(s5)
	sw	a4,8(s0)
	sw	s3,%lo(cursor)(s4)
.L81:
	mv	a1,s1
	li	a4,65536
	bltu	s2,a5,.L82
	bgtu	a5,a4,.L82
	lw	ra,28(sp)
	.cfi_remember_state
	.cfi_restore 1
	lw	s0,24(sp)
	.cfi_restore 8
	lw	s1,20(sp)
	.cfi_restore 9
	lw	s2,16(sp)
	.cfi_restore 18
	lw	s3,12(sp)
	.cfi_restore 19
	lw	s4,8(sp)
	.cfi_restore 20
	lw	s5,4(sp)
	.cfi_restore 21
	lw	s6,0(sp)
	.cfi_restore 22
	addi	sp,sp,32
	.cfi_def_cfa_offset 0
	jr	ra
.L74:
	.cfi_restore_state
	lui	s6,%hi(cursor)
	lw	a5,%lo(cursor)(s6)
	beq	a5,zero,.L77
	lui	s0,%hi(__sfi_end)
	addi	a5,s0,%lo(__sfi_end)
	andi	s5,s2,-16
	add	s5,s5,a5
	addi	s0,s0,%lo(__sfi_end)
	j	.L78
.L79:
	call	look_at
	lw	a4,0(s0)
	lw	a5,%lo(cursor)(s6)
	add	s0,s0,a4
	beq	a5,zero,.L77
.L78:
	mv	a0,s0
	mv	a1,s1
	bltu	s0,s5,.L79
	j	.L77
.L91:
	sw	s3,%lo(oldest)(s6)
	lui	a4,%hi(youngest)
	j	.L80
	.cfi_endproc
.LFE40:
	.section	.text.__heap_take,"ax",@progbits
	.globl	__heap_take
__heap_take:
.LFB20:
	.cfi_startproc
	addi	sp,sp,-64
	.cfi_def_cfa_offset 64
	sw	s6,32(sp)
	.cfi_offset 22, -32
	lui	s6,%hi(cursor)
	lw	a5,%lo(cursor)(s6)
	sw	s2,48(sp)
	sw	s3,44(sp)
	sw	ra,60(sp)
	sw	s0,56(sp)
	sw	s1,52(sp)
	sw	s4,40(sp)
	sw	s5,36(sp)
	sw	s7,28(sp)
	.cfi_offset 18, -16
	.cfi_offset 19, -20
	.cfi_offset 1, -4
	.cfi_offset 8, -8
	.cfi_offset 9, -12
	.cfi_offset 20, -24
	.cfi_offset 21, -28
	.cfi_offset 23, -36
	sw	a0,8(sp)
	mv	s2,a1
	mv	s3,a2
	beq	a5,zero,.L128
	lui	a3,%hi(calls)
	lw	a4,%lo(calls)(a3)
	addi	a4,a4,1
	sw	a4,%lo(calls)(a3)
	andi	a4,a4,255
	beq	a4,zero,.L116
	lui	s1,%hi(__heap_size)
.L96:
	lw	a4,%lo(__heap_size)(s1)
	lw	a3,8(sp)
	sw	a4,12(sp)
	bleu	a4,a3,.L97
	addi	s1,a3,31
	li	s7,1718771712
	andi	s1,s1,-16
	addi	a4,s7,1381
	addi	s1,s1,32
	lui	s0,%hi(__sfi_end)
	lui	s4,%hi(oldest)
	lui	s5,%hi(waiting)
	sw	a4,4(sp)
	j	.L101
.L129:
	call	found_from
	mv	a1,s3
	mv	a5,a0
	bne	a0,zero,.L100
	lw	s7,%lo(oldest)(s4)
	mv	a0,s7
	beq	s7,zero,.L97
	call	look_at
	lw	a4,%lo(waiting)(s5)
	lw	a1,0(s7)
	lw	a5,4(sp)
	lw	a2,20(s7)
	addi	a3,s0,%lo(__sfi_end)
	sub	a4,a4,a1
	sw	a5,8(s7)
	sw	a2,%lo(oldest)(s4)
	sw	a4,%lo(waiting)(s5)
	sw	a3,%lo(cursor)(s6)
	addi	a5,s0,%lo(__sfi_end)
.L101:
	mv	a2,s2
	mv	a1,s1
	mv	a0,a5
	call	found_from
	mv	a5,a0
	mv	a2,s2
	mv	a1,s1
	addi	a0,s0,%lo(__sfi_end)
	beq	a5,zero,.L129
.L100:
	mv	a2,s2
	mv	a0,a5
	mv	a1,s1
	sw	a5,4(sp)
	call	place_in
	lw	a5,4(sp)
	mv	s2,a0
	beq	a5,a0,.L109
	lw	a4,0(a5)
	sub	a3,s2,a5
	sw	zero,4(s2)
	sub	a4,a4,a3
	sw	a4,0(s2)
	li	a4,1718771712
	addi	a4,a4,1381
	sw	zero,12(s2)
	sw	zero,16(s2)
	sw	zero,20(s2)
	sw	zero,24(s2)
	sw	zero,28(s2)
	sw	a4,8(s2)
	sw	a3,0(a5)
.L109:
	lw	a5,0(s2)
	li	a3,31
	sub	a4,a5,s1
	add	a5,s2,a5
	bleu	a4,a3,.L105
	add	a5,s2,s1
	sw	a4,0(a5)
	li	a4,1718771712
	addi	a4,a4,1381
	sw	zero,4(a5)
	sw	zero,12(a5)
	sw	zero,16(a5)
	sw	zero,20(a5)
	sw	zero,24(a5)
	sw	zero,28(a5)
	sw	a4,8(a5)
	sw	s1,0(s2)
.L105:
	lw	a4,12(sp)
	addi	s0,s0,%lo(__sfi_end)
	andi	a4,a4,-16
	add	a4,a4,s0
	bgeu	a5,a4,.L106
	addi	a5,a5,32
.L106:
	lui	a4,%hi(__heap_end)
	lw	a3,%lo(__heap_end)(a4)
	bgeu	a3,a5,.L107
	sw	a5,%lo(__heap_end)(a4)
.L107:
	lw	s1,8(sp)
	li	a5,1970495488
	addi	a5,a5,1380
	sw	a5,8(s2)
	li	a2,8
	li	a1,251
	sw	s1,4(s2)
	sw	s3,12(s2)
	addi	a0,s2,24
	call	memset
	addi	s0,s2,32
	mv	a2,s1
	li	a1,205
	mv	a0,s0
	call	memset
	lw	a2,0(s2)
	addi	a0,s1,32
	li	a1,251
	addi	a2,a2,-32
	sub	a2,a2,s1
	add	a0,s2,a0
	call	memset
	sw	s2,%lo(cursor)(s6)
.L92:
	lw	ra,60(sp)
	.cfi_remember_state
	.cfi_restore 1
	mv	a0,s0
	lw	s0,56(sp)
	.cfi_restore 8
	lw	s1,52(sp)
	.cfi_restore 9
	lw	s2,48(sp)
	.cfi_restore 18
	lw	s3,44(sp)
	.cfi_restore 19
	lw	s4,40(sp)
	.cfi_restore 20
	lw	s5,36(sp)
	.cfi_restore 21
	lw	s6,32(sp)
	.cfi_restore 22
	lw	s7,28(sp)
	.cfi_restore 23
	addi	sp,sp,64
	.cfi_def_cfa_offset 0
	jr	ra
.L116:
	.cfi_restore_state
	lui	s0,%hi(__sfi_end)
	lui	s1,%hi(__heap_size)
	addi	s4,s0,%lo(__sfi_end)
.L95:
	lw	a5,%lo(__heap_size)(s1)
	addi	s0,s0,%lo(__sfi_end)
	andi	a5,a5,-16
	add	s4,s4,a5
	j	.L98
.L99:
	call	look_at
	lw	a4,0(s0)
	lw	a5,%lo(cursor)(s6)
	add	s0,s0,a4
	beq	a5,zero,.L97
.L98:
	mv	a0,s0
	mv	a1,s3
	bltu	s0,s4,.L99
	lw	a5,%lo(cursor)(s6)
	bne	a5,zero,.L96
.L97:
	lui	a5,%hi(__errno)
	addi	a5,a5,%lo(__errno)
	beq	a5,zero,.L102
	call	__errno
	li	a5,12
	sw	a5,0(a0)
.L102:
	li	s0,0
	j	.L92
.L128:
	lui	s1,%hi(__heap_size)
	lw	s5,%lo(__heap_size)(s1)
	li	a5,63
	bgtu	s5,a5,.L130
	lui	a4,%hi(calls)
	lw	a5,%lo(calls)(a4)
	addi	a5,a5,1
	sw	a5,%lo(calls)(a4)
	j	.L97
.L130:
	lui	s0,%hi(__sfi_end)
	addi	s4,s0,%lo(__sfi_end)
	li	a2,32
	li	a1,0
	addi	a0,s0,%lo(__sfi_end)
	sw	s4,%lo(cursor)(s6)
	call	memset
	lui	a4,%hi(calls)
	lw	a5,%lo(calls)(a4)
	li	a3,101
	sb	a3,8(s4)
	sb	a3,9(s4)
	li	a3,114
	andi	a0,s5,240
	srli	a1,s5,8
	srli	a2,s5,16
	sb	a3,10(s4)
	srli	s5,s5,24
	li	a3,102
	addi	a5,a5,1
	sb	a0,0(s4)
	sb	a1,1(s4)
	sb	a2,2(s4)
	sb	s5,3(s4)
	sb	a3,11(s4)
	sw	a5,%lo(calls)(a4)
	andi	a5,a5,255
	beq	a5,zero,.L95
	addi	a5,s0,%lo(__sfi_end)
	j	.L96
	.cfi_endproc
.LFE20:
	.section	.text.malloc,"ax",@progbits
	.weak	malloc
malloc:
.LFB26:
	.cfi_startproc
	addi	sp,sp,-16
	.cfi_def_cfa_offset 16
	sw	ra,12(sp)
	.cfi_offset 1, -4
	mv	a2,ra
	lw	ra,12(sp)
	.cfi_restore 1
	li	a1,16
	addi	sp,sp,16
	.cfi_def_cfa_offset 0
	tail	__heap_take
	.cfi_endproc
.LFE26:
	.section	.text.calloc,"ax",@progbits
	.weak	calloc
calloc:
.LFB27:
	.cfi_startproc
	addi	sp,sp,-16
	.cfi_def_cfa_offset 16
	sw	ra,12(sp)
	sw	s0,8(sp)
	.cfi_offset 1, -4
	.cfi_offset 8, -8
	mv	a2,ra
	beq	a1,zero,.L134
	mulhu	a5,a0,a1
	bne	a5,zero,.L150
.L134:
	mul	s0,a0,a1
	li	a1,16
	mv	a0,s0
	call	__heap_take
	beq	a0,zero,.L138
	mv	a2,s0
	lw	s0,8(sp)
	.cfi_remember_state
	.cfi_restore 8
	lw	ra,12(sp)
	.cfi_restore 1
	li	a1,0
	addi	sp,sp,16
	.cfi_def_cfa_offset 0
	tail	memset
.L150:
	.cfi_restore_state
	lui	a5,%hi(__errno)
	addi	a5,a5,%lo(__errno)
	beq	a5,zero,.L138
	call	__errno
	li	a5,12
	sw	a5,0(a0)
.L138:
	lw	ra,12(sp)
	.cfi_restore 1
	lw	s0,8(sp)
	.cfi_restore 8
	li	a0,0
	addi	sp,sp,16
	.cfi_def_cfa_offset 0
	jr	ra
	.cfi_endproc
.LFE27:
	.section	.text.realloc,"ax",@progbits
	.weak	realloc
realloc:
.LFB28:
	.cfi_startproc
	addi	sp,sp,-32
	.cfi_def_cfa_offset 32
	sw	s0,24(sp)
	sw	s1,20(sp)
	sw	ra,28(sp)
	sw	s2,16(sp)
	sw	s3,12(sp)
	sw	s4,8(sp)
	.cfi_offset 8, -8
	.cfi_offset 9, -12
	.cfi_offset 1, -4
	.cfi_offset 18, -16
	.cfi_offset 19, -20
	.cfi_offset 20, -24
	mv	s0,ra
	mv	s1,a1
	beq	a0,zero,.L162
	mv	a1,ra
	mv	s2,a0
	call	block_of
	mv	a5,a0
	li	s3,0
	bne	s1,zero,.L163
.L153:
	mv	a1,s0
	mv	a0,s2
	call	give_back.part.0
.L151:
	lw	ra,28(sp)
	.cfi_remember_state
	.cfi_restore 1
	lw	s0,24(sp)
	.cfi_restore 8
	lw	s1,20(sp)
	.cfi_restore 9
	lw	s2,16(sp)
	.cfi_restore 18
	lw	s4,8(sp)
	.cfi_restore 20
	mv	a0,s3
	lw	s3,12(sp)
	.cfi_restore 19
	addi	sp,sp,32
	.cfi_def_cfa_offset 0
	jr	ra
.L163:
	.cfi_restore_state
	mv	a2,s0
	li	a1,16
	mv	a0,s1
	lw	s4,4(a5)
	call	__heap_take
	mv	s3,a0
	beq	a0,zero,.L151
	mv	a2,s1
	bleu	s1,s4,.L155
	mv	a2,s4
.L155:
	mv	a1,s2
	mv	a0,s3
	call	memcpy
	j	.L153
.L162:
	lw	s0,24(sp)
	.cfi_restore 8
	lw	s2,16(sp)
	.cfi_restore 18
	lw	s3,12(sp)
	.cfi_restore 19
	lw	s4,8(sp)
	.cfi_restore 20
	mv	a2,ra
	mv	a0,s1
	lw	ra,28(sp)
	.cfi_restore 1
	lw	s1,20(sp)
	.cfi_restore 9
	li	a1,16
	addi	sp,sp,32
	.cfi_def_cfa_offset 0
	tail	__heap_take
	.cfi_endproc
.LFE28:
	.section	.text.free,"ax",@progbits
	.weak	free
free:
.LFB29:
	.cfi_startproc
	addi	sp,sp,-16
	.cfi_def_cfa_offset 16
	sw	ra,12(sp)
	.cfi_offset 1, -4
	beq	a0,zero,.L164
	mv	a1,ra
	lw	ra,12(sp)
	.cfi_remember_state
	.cfi_restore 1
	addi	sp,sp,16
	.cfi_def_cfa_offset 0
	tail	give_back.part.0
.L164:
	.cfi_restore_state
	lw	ra,12(sp)
	.cfi_restore 1
	addi	sp,sp,16
	.cfi_def_cfa_offset 0
	jr	ra
	.cfi_endproc
.LFE29:
	.section	.text.memalign,"ax",@progbits
	.weak	memalign
memalign:
.LFB30:
	.cfi_startproc
	addi	sp,sp,-16
	.cfi_def_cfa_offset 16
	mv	a5,a0
	sw	ra,12(sp)
	.cfi_offset 1, -4
	li	a4,16
	mv	a2,ra
	mv	a0,a1
	bgeu	a5,a4,.L168
	li	a5,16
.L168:
	lw	ra,12(sp)
	.cfi_restore 1
	mv	a1,a5
	addi	sp,sp,16
	.cfi_def_cfa_offset 0
	tail	__heap_take
	.cfi_endproc
.LFE30:
	.section	.text.aligned_alloc,"ax",@progbits
	.weak	aligned_alloc
aligned_alloc:
.LFB43:
	.cfi_startproc
	addi	sp,sp,-16
	.cfi_def_cfa_offset 16
	mv	a5,a0
	sw	ra,12(sp)
	.cfi_offset 1, -4
	li	a4,16
	mv	a2,ra
	mv	a0,a1
	bgeu	a5,a4,.L171
	li	a5,16
.L171:
	lw	ra,12(sp)
	.cfi_restore 1
	mv	a1,a5
	addi	sp,sp,16
	.cfi_def_cfa_offset 0
	tail	__heap_take
	.cfi_endproc
.LFE43:
	.section	.text.malloc_usable_size,"ax",@progbits
	.weak	malloc_usable_size
malloc_usable_size:
.LFB32:
	.cfi_startproc
	beq	a0,zero,.L175
	addi	sp,sp,-16
	.cfi_def_cfa_offset 16
	mv	a1,ra
	sw	ra,12(sp)
	.cfi_offset 1, -4
	call	block_of
	lw	ra,12(sp)
	.cfi_restore 1
	lw	a0,4(a0)
	addi	sp,sp,16
	.cfi_def_cfa_offset 0
	jr	ra
.L175:
	li	a0,0
	ret
	.cfi_endproc
.LFE32:
	.section	.text._malloc_r,"ax",@progbits
	.weak	_malloc_r
_malloc_r:
.LFB33:
	.cfi_startproc
	addi	sp,sp,-16
	.cfi_def_cfa_offset 16
	sw	ra,12(sp)
	.cfi_offset 1, -4
	mv	a2,ra
	lw	ra,12(sp)
	.cfi_restore 1
	mv	a0,a1
	li	a1,16
	addi	sp,sp,16
	.cfi_def_cfa_offset 0
	tail	__heap_take
	.cfi_endproc
.LFE33:
	.section	.text._calloc_r,"ax",@progbits
	.weak	_calloc_r
_calloc_r:
.LFB34:
	.cfi_startproc
	addi	sp,sp,-16
	.cfi_def_cfa_offset 16
	mv	a5,a2
	sw	ra,12(sp)
	sw	s0,8(sp)
	.cfi_offset 1, -4
	.cfi_offset 8, -8
	mv	a2,ra
	beq	a5,zero,.L183
	mulhu	a4,a1,a5
	bne	a4,zero,.L199
.L183:
	mul	s0,a1,a5
	li	a1,16
	mv	a0,s0
	call	__heap_take
	beq	a0,zero,.L187
	mv	a2,s0
	lw	s0,8(sp)
	.cfi_remember_state
	.cfi_restore 8
	lw	ra,12(sp)
	.cfi_restore 1
	li	a1,0
	addi	sp,sp,16
	.cfi_def_cfa_offset 0
	tail	memset
.L199:
	.cfi_restore_state
	lui	a5,%hi(__errno)
	addi	a5,a5,%lo(__errno)
	beq	a5,zero,.L187
	call	__errno
	li	a5,12
	sw	a5,0(a0)
.L187:
	lw	ra,12(sp)
	.cfi_restore 1
	lw	s0,8(sp)
	.cfi_restore 8
	li	a0,0
	addi	sp,sp,16
	.cfi_def_cfa_offset 0
	jr	ra
	.cfi_endproc
.LFE34:
	.section	.text._realloc_r,"ax",@progbits
	.weak	_realloc_r
_realloc_r:
.LFB35:
	.cfi_startproc
	addi	sp,sp,-32
	.cfi_def_cfa_offset 32
	sw	s1,20(sp)
	sw	s2,16(sp)
	sw	ra,28(sp)
	sw	s0,24(sp)
	sw	s3,12(sp)
	sw	s4,8(sp)
	.cfi_offset 9, -12
	.cfi_offset 18, -16
	.cfi_offset 1, -4
	.cfi_offset 8, -8
	.cfi_offset 19, -20
	.cfi_offset 20, -24
	mv	s1,ra
	mv	s2,a2
	beq	a1,zero,.L211
	mv	s0,a1
	mv	a0,s0
	mv	a1,ra
	call	block_of
	mv	a5,a0
	li	s3,0
	bne	s2,zero,.L212
.L202:
	mv	a1,s1
	mv	a0,s0
	call	give_back.part.0
.L200:
	lw	ra,28(sp)
	.cfi_remember_state
	.cfi_restore 1
	lw	s0,24(sp)
	.cfi_restore 8
	lw	s1,20(sp)
	.cfi_restore 9
	lw	s2,16(sp)
	.cfi_restore 18
	lw	s4,8(sp)
	.cfi_restore 20
	mv	a0,s3
	lw	s3,12(sp)
	.cfi_restore 19
	addi	sp,sp,32
	.cfi_def_cfa_offset 0
	jr	ra
.L212:
	.cfi_restore_state
	mv	a2,s1
	li	a1,16
	mv	a0,s2
	lw	s4,4(a5)
	call	__heap_take
	mv	s3,a0
	beq	a0,zero,.L200
	mv	a2,s2
	bleu	s2,s4,.L204
	mv	a2,s4
.L204:
	mv	a1,s0
	mv	a0,s3
	call	memcpy
	j	.L202
.L211:
	lw	s0,24(sp)
	.cfi_restore 8
	lw	s1,20(sp)
	.cfi_restore 9
	lw	s3,12(sp)
	.cfi_restore 19
	lw	s4,8(sp)
	.cfi_restore 20
	mv	a2,ra
	mv	a0,s2
	lw	ra,28(sp)
	.cfi_restore 1
	lw	s2,16(sp)
	.cfi_restore 18
	li	a1,16
	addi	sp,sp,32
	.cfi_def_cfa_offset 0
	tail	__heap_take
	.cfi_endproc
.LFE35:
	.section	.text._free_r,"ax",@progbits
	.weak	_free_r
_free_r:
.LFB36:
	.cfi_startproc
	addi	sp,sp,-16
	.cfi_def_cfa_offset 16
	sw	ra,12(sp)
	.cfi_offset 1, -4
	mv	a0,a1
	beq	a1,zero,.L213
	mv	a1,ra
	lw	ra,12(sp)
	.cfi_remember_state
	.cfi_restore 1
	addi	sp,sp,16
	.cfi_def_cfa_offset 0
	tail	give_back.part.0
.L213:
	.cfi_restore_state
	lw	ra,12(sp)
	.cfi_restore 1
	addi	sp,sp,16
	.cfi_def_cfa_offset 0
	jr	ra
	.cfi_endproc
.LFE36:
	.section	.text._memalign_r,"ax",@progbits
	.weak	_memalign_r
_memalign_r:
.LFB37:
	.cfi_startproc
	addi	sp,sp,-16
	.cfi_def_cfa_offset 16
	sw	ra,12(sp)
	.cfi_offset 1, -4
	li	a5,16
	mv	a0,a2
	mv	a2,ra
	bgeu	a1,a5,.L217
	li	a1,16
.L217:
	lw	ra,12(sp)
	.cfi_restore 1
	addi	sp,sp,16
	.cfi_def_cfa_offset 0
	tail	__heap_take
	.cfi_endproc
.LFE37:
	.section	.text._malloc_usable_size_r,"ax",@progbits
	.weak	_malloc_usable_size_r
_malloc_usable_size_r:
.LFB38:
	.cfi_startproc
	mv	a5,a1
	beq	a1,zero,.L223
	addi	sp,sp,-16
	.cfi_def_cfa_offset 16
	mv	a1,ra
	mv	a0,a5
	sw	ra,12(sp)
	.cfi_offset 1, -4
	call	block_of
	lw	ra,12(sp)
	.cfi_restore 1
	lw	a0,4(a0)
	addi	sp,sp,16
	.cfi_def_cfa_offset 0
	jr	ra
.L223:
	li	a0,0
	ret
	.cfi_endproc
.LFE38:
	.section	.text.__wrap_exit_with,"ax",@progbits
	.globl	__wrap_exit_with
__wrap_exit_with:
.LFB39:
	.cfi_startproc
	addi	sp,sp,-32
	.cfi_def_cfa_offset 32
	sw	s4,8(sp)
	.cfi_offset 20, -24
	lui	s4,%hi(cursor)
	lw	a5,%lo(cursor)(s4)
	sw	s3,12(sp)
	sw	ra,28(sp)
	sw	s0,24(sp)
	sw	s1,20(sp)
	sw	s2,16(sp)
	.cfi_offset 19, -20
	.cfi_offset 1, -4
	.cfi_offset 8, -8
	.cfi_offset 9, -12
	.cfi_offset 18, -16
	mv	s3,a0
	beq	a5,zero,.L231
	lui	a4,%hi(__heap_size)
	lw	s1,%lo(__heap_size)(a4)
	lui	s0,%hi(__sfi_end)
	addi	a5,s0,%lo(__sfi_end)
	andi	s1,s1,-16
	mv	s2,ra
	add	s1,s1,a5
	addi	s0,s0,%lo(__sfi_end)
.L230:
	bgeu	s0,s1,.L231
	mv	a0,s0
	mv	a1,s2
	call	look_at
	lw	a4,0(s0)
	lw	a5,%lo(cursor)(s4)
	add	s0,s0,a4
	bne	a5,zero,.L230
.L231:
	mv	a0,s3
	call	__real_exit_with
	.cfi_endproc
.LFE39:
	.section	.sbss.calls,"aw",@nobits
	.align	2
calls:
	.zero	4
	.section	.sbss.waiting,"aw",@nobits
	.align	2
waiting:
	.zero	4
	.section	.sbss.youngest,"aw",@nobits
	.align	2
youngest:
	.zero	4
	.section	.sbss.oldest,"aw",@nobits
	.align	2
oldest:
	.zero	4
	.section	.sbss.cursor,"aw",@nobits
	.align	2
cursor:
	.zero	4
	.weak	__errno
	.ident	"GCC: (12.2.0-14+deb12u1+11+b2) 12.2.0"
