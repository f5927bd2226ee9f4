	.file	"runtime.c"
	.option nopic
	.attribute arch, "rv32i2p1_m2p0_c2p0"
	.attribute unaligned_access, 0
	.attribute stack_align, 16
	.text
	.section	.text.divided_by_more,"ax",@progbits
divided_by_more:
	srli	a6,a3,16
	addi	a7,a3,1
	beq	a6,zero,.L2
	beq	a7,zero,.L12
	divu	a7,a1,a7
	mulhu	t3,a7,a2
	mul	a6,a7,a3
	mul	t1,a7,a2
	add	a6,a6,t3
.L3:
	sub	t1,a0,t1
	sgtu	a0,t1,a0
	sub	a6,a1,a6
	sub	a6,a6,a0
	mv	a1,a6
	mv	a0,t1
	bgtu	a3,a6,.L4
	beq	a3,a6,.L19
.L13:
	sub	a0,t1,a2
	sgtu	t1,a0,t1
	sub	a6,a6,a3
	sub	a1,a6,t1
	addi	a7,a7,1
.L4:
	bne	a5,zero,.L17
	mv	a0,a7
	li	a1,0
	blt	a4,zero,.L15
.L1:
	ret
.L2:
	li	a6,-1
	divu	a7,a6,a7
	mulhu	t3,a7,a2
	slli	t1,a7,1
	mul	a7,a7,a3
	add	a7,a7,t3
	srli	a7,a7,16
	addi	a7,a7,1
	divu	a6,a6,a7
	slli	a6,a6,15
	mulhu	a6,a6,t1
	mulhu	t1,a6,a2
	mul	a7,a3,a6
	add	a7,a7,t1
	not	a7,a7
	mulhu	a7,a7,a6
	add	a6,a6,a7
	mulhu	t1,a6,a1
	mul	t3,t1,a2
	sub	t3,a0,t3
	sgtu	a7,t3,a0
	mulhu	t0,t1,a2
	mv	a0,t3
	mul	t3,a3,t1
	add	t3,t3,t0
	sub	a1,a1,t3
	sub	a1,a1,a7
	bgtu	a3,a1,.L9
	mulhu	a6,a6,a1
	addi	a6,a6,1
	mul	a7,a6,a2
	add	t1,t1,a6
	mulhu	t0,a6,a2
	sub	a7,a0,a7
	sgtu	t3,a7,a0
	mv	a0,a7
	mul	a6,a6,a3
	add	a6,a6,t0
	sub	a6,a1,a6
	sub	a1,a6,t3
	blt	a1,zero,.L20
.L9:
	beq	a5,zero,.L10
.L17:
	bge	a4,zero,.L1
	snez	a5,a0
	neg	a1,a1
	sub	a1,a1,a5
	neg	a0,a0
	ret
.L10:
	mv	a0,t1
	li	a1,0
	bge	a4,zero,.L1
.L15:
	snez	a1,a0
	neg	a1,a1
	neg	a0,a0
	ret
.L12:
	li	t1,0
	li	a6,0
	j	.L3
.L19:
	bgtu	a2,t1,.L4
	j	.L13
.L20:
	add	a2,a7,a2
	sltu	a6,a2,a7
	add	a3,a1,a3
	mv	a0,a2
	add	a1,a6,a3
	addi	t1,t1,-1
	beq	a5,zero,.L10
	j	.L17
	.section	.text.divided_by_half,"ax",@progbits
divided_by_half:
	beq	a2,zero,.L59
	beq	a1,zero,.L60
	srli	a6,a2,16
	remu	a5,a1,a2
	srli	a7,a0,16
	beq	a6,zero,.L61
	blt	a2,zero,.L62
	addi	a6,a6,1
	li	t3,65536
	divu	t3,t3,a6
	slli	a6,a5,16
	or	a6,a6,a7
	mul	a7,a2,t3
	mul	a5,t3,a5
	srli	a7,a7,16
	addi	a7,a7,1
	divu	a5,a5,a7
	mul	t1,a2,a5
	sub	a6,a6,t1
	remu	t1,a6,a2
	mul	t1,t1,t3
	divu	a6,a6,a2
	divu	a7,t1,a7
	add	a5,a6,a5
	slli	a5,a5,16
	add	a5,a5,a7
	mul	a6,a2,a5
	sub	a0,a0,a6
	bne	a3,zero,.L53
	divu	a0,a0,a2
	divu	a1,a1,a2
	add	a0,a0,a5
.L57:
	blt	a4,zero,.L51
.L21:
	ret
.L60:
	beq	a3,zero,.L25
.L53:
	remu	a0,a0,a2
.L55:
	li	a1,0
	bge	a4,zero,.L21
	snez	a1,a0
	neg	a1,a1
	neg	a0,a0
	ret
.L59:
	bne	a3,zero,.L57
	li	a0,-1
	li	a1,-1
	ret
.L62:
	divu	t3,a5,a6
	slli	t1,a2,16
	srli	t1,t1,16
	remu	a5,a5,a6
	mul	t0,t3,t1
	slli	a5,a5,16
	or	a5,a5,a7
	bleu	t0,a5,.L32
	add	a5,a2,a5
	addi	a7,t3,-1
	bltu	a5,a2,.L45
	bleu	t0,a5,.L45
	addi	t3,t3,-2
	add	a5,a5,a2
.L32:
	sub	a5,a5,t0
	divu	a7,a5,a6
	slli	a0,a0,16
	srli	a0,a0,16
	remu	a5,a5,a6
	mul	t1,t1,a7
	slli	a5,a5,16
	or	a5,a5,a0
	bleu	t1,a5,.L35
	add	a5,a2,a5
	addi	a0,a7,-1
	bltu	a5,a2,.L47
	bleu	t1,a5,.L47
	addi	a7,a7,-2
	add	a5,a5,a2
.L35:
	beq	a3,zero,.L38
	sub	a0,a5,t1
	li	a1,0
	bge	a4,zero,.L21
	snez	a1,a0
	neg	a1,a1
	sub	a0,t1,a5
	ret
.L61:
	slli	a5,a5,16
	or	a5,a5,a7
	slli	a6,a0,16
	remu	a0,a5,a2
	srli	a6,a6,16
	slli	a0,a0,16
	or	a0,a0,a6
	bne	a3,zero,.L53
	divu	a5,a5,a2
	divu	a0,a0,a2
	slli	a5,a5,16
	divu	a1,a1,a2
	add	a0,a5,a0
	bge	a4,zero,.L21
.L51:
	snez	a5,a0
	neg	a1,a1
	sub	a1,a1,a5
	neg	a0,a0
	ret
.L25:
	divu	a0,a0,a2
	j	.L55
.L38:
	slli	a5,t3,16
	divu	a1,a1,a2
	or	a0,a5,a7
	blt	a4,zero,.L51
	ret
.L47:
	mv	a7,a0
	j	.L35
.L45:
	mv	t3,a7
	j	.L32
	.section	.text.memcpy,"ax",@progbits
	.globl	memcpy
memcpy:
	or	a5,a0,a1
	andi	a5,a5,3
	bne	a5,zero,.L70
	li	a5,3
	bleu	a2,a5,.L70
	addi	a7,a2,-4
	andi	a7,a7,-4
	addi	a7,a7,4
	add	a5,a0,a7
	mv	a3,a1
	mv	a4,a0
.L68:
	lw	a6,0(a3)
	addi	a4,a4,4
	addi	a3,a3,4
	sw	a6,-4(a4)
	bne	a4,a5,.L68
	andi	a2,a2,3
	add	a1,a1,a7
	add	a3,a5,a2
	bne	a2,zero,.L69
.L74:
	ret
.L70:
	mv	a5,a0
	add	a3,a5,a2
	beq	a2,zero,.L74
.L69:
	lbu	a4,0(a1)
	addi	a5,a5,1
	addi	a1,a1,1
	sb	a4,-1(a5)
	bne	a5,a3,.L69
	ret
	.section	.text.memmove,"ax",@progbits
	.globl	memmove
memmove:
	bleu	a0,a1,.L76
	addi	a5,a2,-1
	li	a6,-1
	beq	a2,zero,.L90
.L77:
	add	a4,a1,a5
	lbu	a3,0(a4)
	add	a4,a0,a5
	addi	a5,a5,-1
	sb	a3,0(a4)
	bne	a5,a6,.L77
	ret
.L76:
	or	a5,a0,a1
	andi	a5,a5,3
	bne	a5,zero,.L84
	li	a5,3
	bleu	a2,a5,.L84
	addi	a5,a2,-4
	andi	a5,a5,-4
	addi	a5,a5,4
	add	a6,a1,a5
	mv	a4,a0
.L82:
	lw	a3,0(a1)
	addi	a1,a1,4
	addi	a4,a4,4
	sw	a3,-4(a4)
	bne	a6,a1,.L82
	andi	a2,a2,3
	add	a5,a0,a5
	j	.L81
.L84:
	mv	a5,a0
.L81:
	add	a3,a1,a2
	beq	a2,zero,.L91
.L83:
	lbu	a4,0(a1)
	addi	a1,a1,1
	addi	a5,a5,1
	sb	a4,-1(a5)
	bne	a3,a1,.L83
	ret
.L90:
	ret
.L91:
	ret
	.section	.text.memset,"ax",@progbits
	.globl	memset
memset:
	andi	a5,a1,255
	slli	a3,a5,8
	add	a3,a3,a5
	slli	a5,a3,16
	andi	a1,a1,0xff
	add	a3,a3,a5
	beq	a2,zero,.L104
	andi	a5,a0,3
	beq	a5,zero,.L101
	mv	a5,a0
	j	.L96
.L112:
	beq	a4,zero,.L94
.L96:
	sb	a1,0(a5)
	addi	a2,a2,-1
	addi	a5,a5,1
	andi	a4,a5,3
	bne	a2,zero,.L112
.L104:
	ret
.L101:
	mv	a5,a0
.L94:
	li	a4,3
	bleu	a2,a4,.L113
	addi	a4,a2,-4
	andi	a4,a4,-4
	addi	a4,a4,4
	add	a4,a5,a4
.L97:
	sw	a3,0(a5)
	addi	a5,a5,4
	bne	a4,a5,.L97
	andi	a2,a2,3
	beq	a2,zero,.L104
.L100:
	add	a2,a4,a2
.L98:
	addi	a4,a4,1
	sb	a1,-1(a4)
	bne	a2,a4,.L98
	ret
.L113:
	mv	a4,a5
	j	.L100
	.section	.text.memcmp,"ax",@progbits
	.globl	memcmp
memcmp:
	beq	a2,zero,.L118
	add	a2,a1,a2
	j	.L117
.L116:
	beq	a1,a2,.L118
.L117:
	lbu	a5,0(a0)
	lbu	a4,0(a1)
	addi	a0,a0,1
	addi	a1,a1,1
	beq	a5,a4,.L116
	sub	a0,a5,a4
	ret
.L118:
	li	a0,0
	ret
	.section	.text.strlen,"ax",@progbits
	.globl	strlen
strlen:
	lbu	a5,0(a0)
	beq	a5,zero,.L123
	mv	a5,a0
.L122:
	lbu	a4,1(a5)
	addi	a5,a5,1
	bne	a4,zero,.L122
	sub	a0,a5,a0
	ret
.L123:
	li	a0,0
	ret
	.section	.text.__ashldi3,"ax",@progbits
	.globl	__ashldi3
__ashldi3:
	mv	a5,a0
	beq	a2,zero,.L128
	li	a4,31
	ble	a2,a4,.L127
	addi	a1,a2,-32
	li	a0,0
	sll	a1,a5,a1
	ret
.L127:
	li	a4,32
	sub	a4,a4,a2
	srl	a4,a0,a4
	sll	a1,a1,a2
	sll	a0,a0,a2
	or	a1,a4,a1
	ret
.L128:
	ret
	.section	.text.__lshrdi3,"ax",@progbits
	.globl	__lshrdi3
__lshrdi3:
	beq	a2,zero,.L129
	li	a5,31
	ble	a2,a5,.L131
	addi	a2,a2,-32
	srl	a0,a1,a2
	li	a1,0
	ret
.L131:
	li	a5,32
	sub	a5,a5,a2
	sll	a5,a1,a5
	srl	a0,a0,a2
	or	a0,a5,a0
	srl	a1,a1,a2
.L129:
	ret
	.section	.text.__ashrdi3,"ax",@progbits
	.globl	__ashrdi3
__ashrdi3:
	beq	a2,zero,.L133
	li	a5,31
	bgt	a2,a5,.L137
	li	a5,32
	sub	a5,a5,a2
	sll	a5,a1,a5
	srl	a0,a0,a2
	or	a0,a5,a0
	sra	a1,a1,a2
.L133:
	ret
.L137:
	addi	a2,a2,-32
	sra	a0,a1,a2
	srai	a1,a1,31
	ret
	.section	.text.__muldi3,"ax",@progbits
	.globl	__muldi3
__muldi3:
	mul	a3,a0,a3
	mul	a1,a2,a1
	mulhu	a5,a2,a0
	add	a1,a1,a3
	mul	a0,a2,a0
	add	a1,a1,a5
	ret
	.section	.text.__udivdi3,"ax",@progbits
	.globl	__udivdi3
__udivdi3:
	beq	a3,zero,.L140
	li	a5,0
	li	a4,0
	tail	divided_by_more
.L140:
	li	a4,0
	tail	divided_by_half
	.section	.text.__umoddi3,"ax",@progbits
	.globl	__umoddi3
__umoddi3:
	beq	a3,zero,.L142
	li	a5,1
	li	a4,0
	tail	divided_by_more
.L142:
	li	a4,0
	li	a3,1
	tail	divided_by_half
	.section	.text.__divdi3,"ax",@progbits
	.globl	__divdi3
__divdi3:
	mv	a5,a1
	mv	a4,a3
	bge	a1,zero,.L144
	snez	a3,a0
	neg	a1,a1
	neg	a0,a0
	sub	a1,a1,a3
.L144:
	mv	a3,a4
	bge	a4,zero,.L146
	snez	a6,a2
	neg	a3,a4
	neg	a2,a2
	sub	a3,a3,a6
.L146:
	xor	a4,a4,a5
	beq	a3,zero,.L148
	li	a5,0
	tail	divided_by_more
.L148:
	li	a3,0
	tail	divided_by_half
	.section	.text.__moddi3,"ax",@progbits
	.globl	__moddi3
__moddi3:
	mv	a4,a1
	bge	a1,zero,.L152
	snez	a5,a0
	neg	a1,a1
	neg	a0,a0
	sub	a1,a1,a5
.L152:
	bge	a3,zero,.L154
	snez	a5,a2
	neg	a3,a3
	sub	a3,a3,a5
	neg	a2,a2
.L154:
	beq	a3,zero,.L156
	li	a5,1
	tail	divided_by_more
.L156:
	li	a3,1
	tail	divided_by_half
	.section	.text.__clzsi2,"ax",@progbits
	.globl	__clzsi2
__clzsi2:
	srli	a4,a0,16
	li	a5,32
	beq	a4,zero,.L159
	mv	a0,a4
	li	a5,16
.L159:
	srli	a4,a0,8
	beq	a4,zero,.L160
	addi	a5,a5,-8
	mv	a0,a4
.L160:
	srli	a4,a0,4
	beq	a4,zero,.L161
	addi	a5,a5,-4
	mv	a0,a4
.L161:
	srli	a4,a0,2
	beq	a4,zero,.L162
	addi	a5,a5,-2
	mv	a0,a4
.L162:
	srli	a4,a0,1
	sub	a5,a5,a4
	snez	a0,a0
	sub	a0,a5,a0
	ret
	.section	.text.__clzdi2,"ax",@progbits
	.globl	__clzdi2
__clzdi2:
	beq	a1,zero,.L175
	mv	a0,a1
	tail	__clzsi2
.L175:
	addi	sp,sp,-16
	sw	ra,12(sp)
	call	__clzsi2
	lw	ra,12(sp)
	addi	a0,a0,32
	addi	sp,sp,16
	jr	ra
	.section	.text.__ctzsi2,"ax",@progbits
	.globl	__ctzsi2
__ctzsi2:
	beq	a0,zero,.L180
	neg	a5,a0
	addi	sp,sp,-16
	and	a0,a5,a0
	sw	ra,12(sp)
	call	__clzsi2
	lw	ra,12(sp)
	li	a5,31
	sub	a0,a5,a0
	addi	sp,sp,16
	jr	ra
.L180:
	li	a0,32
	ret
	.section	.text.__ctzdi2,"ax",@progbits
	.globl	__ctzdi2
__ctzdi2:
	addi	sp,sp,-16
	sw	ra,12(sp)
	beq	a0,zero,.L186
	neg	a5,a0
	and	a0,a5,a0
	call	__clzsi2
	li	a5,31
	sub	a0,a5,a0
.L185:
	lw	ra,12(sp)
	addi	sp,sp,16
	jr	ra
.L186:
	li	a0,64
	beq	a1,zero,.L185
	neg	a0,a1
	and	a0,a0,a1
	call	__clzsi2
	lw	ra,12(sp)
	li	a5,63
	sub	a0,a5,a0
	addi	sp,sp,16
	jr	ra
	.section	.text.__ffssi2,"ax",@progbits
	.globl	__ffssi2
__ffssi2:
	beq	a0,zero,.L194
	neg	a5,a0
	addi	sp,sp,-16
	and	a0,a5,a0
	sw	ra,12(sp)
	call	__clzsi2
	lw	ra,12(sp)
	li	a5,32
	sub	a0,a5,a0
	addi	sp,sp,16
	jr	ra
.L194:
	li	a0,0
	ret
	.section	.text.__ffsdi2,"ax",@progbits
	.globl	__ffsdi2
__ffsdi2:
	or	a5,a0,a1
	beq	a5,zero,.L205
	addi	sp,sp,-16
	sw	ra,12(sp)
	beq	a0,zero,.L202
	neg	a5,a0
	and	a0,a5,a0
	call	__clzsi2
	li	a5,32
	sub	a0,a5,a0
.L199:
	lw	ra,12(sp)
	addi	sp,sp,16
	jr	ra
.L205:
	li	a0,0
	ret
.L202:
	li	a0,65
	beq	a1,zero,.L199
	neg	a0,a1
	and	a0,a0,a1
	call	__clzsi2
	lw	ra,12(sp)
	li	a5,64
	sub	a0,a5,a0
	addi	sp,sp,16
	jr	ra
	.section	.text.__clrsbsi2,"ax",@progbits
	.globl	__clrsbsi2
__clrsbsi2:
	srai	a5,a0,31
	addi	sp,sp,-16
	xor	a0,a5,a0
	sw	ra,12(sp)
	call	__clzsi2
	lw	ra,12(sp)
	addi	a0,a0,-1
	addi	sp,sp,16
	jr	ra
	.section	.text.__clrsbdi2,"ax",@progbits
	.globl	__clrsbdi2
__clrsbdi2:
	addi	sp,sp,-16
	sw	ra,12(sp)
	srai	a5,a1,31
	beq	a1,a5,.L218
	xor	a0,a1,a5
	call	__clzsi2
	lw	ra,12(sp)
	addi	a0,a0,-1
	addi	sp,sp,16
	jr	ra
.L218:
	xor	a0,a1,a0
	call	__clzsi2
	lw	ra,12(sp)
	addi	a0,a0,31
	addi	sp,sp,16
	jr	ra
	.section	.text.__popcountsi2,"ax",@progbits
	.globl	__popcountsi2
__popcountsi2:
	mv	a5,a0
	li	a0,0
	beq	a5,zero,.L222
.L221:
	addi	a4,a5,-1
	and	a5,a5,a4
	addi	a0,a0,1
	bne	a5,zero,.L221
	ret
.L222:
	ret
	.section	.text.__popcountdi2,"ax",@progbits
	.globl	__popcountdi2
__popcountdi2:
	mv	a5,a0
	li	a0,0
	beq	a5,zero,.L225
.L226:
	addi	a4,a5,-1
	and	a5,a5,a4
	addi	a0,a0,1
	bne	a5,zero,.L226
.L225:
	beq	a1,zero,.L224
	li	a5,0
.L228:
	addi	a4,a1,-1
	and	a1,a1,a4
	addi	a5,a5,1
	bne	a1,zero,.L228
	add	a0,a0,a5
.L224:
	ret
	.section	.text.__paritysi2,"ax",@progbits
	.globl	__paritysi2
__paritysi2:
	beq	a0,zero,.L238
	li	a5,0
.L237:
	addi	a4,a0,-1
	and	a0,a0,a4
	addi	a5,a5,1
	bne	a0,zero,.L237
	andi	a0,a5,1
	ret
.L238:
	li	a0,0
	ret
	.section	.text.__paritydi2,"ax",@progbits
	.globl	__paritydi2
__paritydi2:
	xor	a5,a0,a1
	beq	a0,a1,.L243
	li	a0,0
.L242:
	addi	a4,a5,-1
	and	a5,a5,a4
	addi	a0,a0,1
	bne	a5,zero,.L242
	andi	a0,a0,1
	ret
.L243:
	li	a0,0
	ret
	.section	.text.__bswapsi2,"ax",@progbits
	.globl	__bswapsi2
__bswapsi2:
	srli	a3,a0,24
	slli	a5,a0,24
	slli	a4,a0,8
	or	a5,a5,a3
	li	a3,16711680
	and	a4,a4,a3
	or	a5,a5,a4
	li	a4,65536
	addi	a4,a4,-256
	srli	a0,a0,8
	and	a0,a0,a4
	or	a0,a5,a0
	ret
	.section	.text.__bswapdi2,"ax",@progbits
	.globl	__bswapdi2
__bswapdi2:
	li	a5,16711680
	srli	t3,a1,24
	srli	t1,a0,24
	slli	a3,a1,24
	slli	a7,a1,8
	slli	a4,a0,24
	slli	a6,a0,8
	li	a2,65536
	addi	a2,a2,-256
	and	a7,a7,a5
	and	a6,a6,a5
	or	a3,a3,t3
	srli	a5,a0,8
	srli	a1,a1,8
	or	a4,a4,t1
	and	a0,a1,a2
	or	a3,a3,a7
	or	a4,a4,a6
	and	a1,a5,a2
	or	a0,a3,a0
	or	a1,a4,a1
	ret
	.section	.text.unlikely.__cxa_pure_virtual,"ax",@progbits
	.globl	__cxa_pure_virtual
__cxa_pure_virtual:
	ebreak
	.section	.text._Znwj,"ax",@progbits
	.globl	_Znwj
_Znwj:
	addi	sp,sp,-16
	sw	ra,12(sp)
	bne	a0,zero,.L249
	li	a0,1
.L249:
	call	malloc
	beq	a0,zero,.L252
	lw	ra,12(sp)
	addi	sp,sp,16
	jr	ra
.L252:
	ebreak
	.section	.text._Znaj,"ax",@progbits
	.globl	_Znaj
_Znaj:
	addi	sp,sp,-16
	sw	ra,12(sp)
	bne	a0,zero,.L254
	li	a0,1
.L254:
	call	malloc
	beq	a0,zero,.L257
	lw	ra,12(sp)
	addi	sp,sp,16
	jr	ra
.L257:
	ebreak
	.section	.text._ZdlPv,"ax",@progbits
	.globl	_ZdlPv
_ZdlPv:
	tail	free
	.section	.text._ZdaPv,"ax",@progbits
	.globl	_ZdaPv
_ZdaPv:
	tail	free
	.section	.text._ZdlPvj,"ax",@progbits
	.globl	_ZdlPvj
_ZdlPvj:
	tail	free
	.section	.text._ZdaPvj,"ax",@progbits
	.globl	_ZdaPvj
_ZdaPvj:
	tail	free
	.ident	"GCC: (12.2.0-14+deb12u1+11+b2) 12.2.0"
