	.file	"atomics.c"
	.option nopic
	.attribute arch, "rv32i2p1_m2p0_c2p0"
	.attribute unaligned_access, 0
	.attribute stack_align, 16
	.text
	.section	.text.__sync_fetch_and_add_1,"ax",@progbits
	.globl	__sync_fetch_and_add_1
__sync_fetch_and_add_1:
	mv	a5,a0
	lbu	a0,0(a0)
	add	a1,a0,a1
	sb	a1,0(a5)
	ret
	.globl	__atomic_fetch_add_1
	.set	__atomic_fetch_add_1,__sync_fetch_and_add_1
	.section	.text.__sync_add_and_fetch_1,"ax",@progbits
	.globl	__sync_add_and_fetch_1
__sync_add_and_fetch_1:
	lbu	a4,0(a0)
	mv	a5,a0
	add	a1,a1,a4
	andi	a0,a1,0xff
	sb	a0,0(a5)
	ret
	.globl	__atomic_add_fetch_1
	.set	__atomic_add_fetch_1,__sync_add_and_fetch_1
	.section	.text.__sync_fetch_and_sub_1,"ax",@progbits
	.globl	__sync_fetch_and_sub_1
__sync_fetch_and_sub_1:
	mv	a5,a0
	lbu	a0,0(a0)
	sub	a1,a0,a1
	sb	a1,0(a5)
	ret
	.globl	__atomic_fetch_sub_1
	.set	__atomic_fetch_sub_1,__sync_fetch_and_sub_1
	.section	.text.__sync_sub_and_fetch_1,"ax",@progbits
	.globl	__sync_sub_and_fetch_1
__sync_sub_and_fetch_1:
	lbu	a5,0(a0)
	mv	a4,a0
	sub	a5,a5,a1
	andi	a0,a5,0xff
	sb	a0,0(a4)
	ret
	.globl	__atomic_sub_fetch_1
	.set	__atomic_sub_fetch_1,__sync_sub_and_fetch_1
	.section	.text.__sync_fetch_and_or_1,"ax",@progbits
	.globl	__sync_fetch_and_or_1
__sync_fetch_and_or_1:
	mv	a5,a0
	lbu	a0,0(a0)
	or	a1,a0,a1
	sb	a1,0(a5)
	ret
	.globl	__atomic_fetch_or_1
	.set	__atomic_fetch_or_1,__sync_fetch_and_or_1
	.section	.text.__sync_or_and_fetch_1,"ax",@progbits
	.globl	__sync_or_and_fetch_1
__sync_or_and_fetch_1:
	lbu	a4,0(a0)
	mv	a5,a0
	or	a0,a1,a4
	sb	a0,0(a5)
	ret
	.globl	__atomic_or_fetch_1
	.set	__atomic_or_fetch_1,__sync_or_and_fetch_1
	.section	.text.__sync_fetch_and_and_1,"ax",@progbits
	.globl	__sync_fetch_and_and_1
__sync_fetch_and_and_1:
	mv	a5,a0
	lbu	a0,0(a0)
	and	a1,a0,a1
	sb	a1,0(a5)
	ret
	.globl	__atomic_fetch_and_1
	.set	__atomic_fetch_and_1,__sync_fetch_and_and_1
	.section	.text.__sync_and_and_fetch_1,"ax",@progbits
	.globl	__sync_and_and_fetch_1
__sync_and_and_fetch_1:
	lbu	a4,0(a0)
	mv	a5,a0
	and	a0,a1,a4
	sb	a0,0(a5)
	ret
	.globl	__atomic_and_fetch_1
	.set	__atomic_and_fetch_1,__sync_and_and_fetch_1
	.section	.text.__sync_fetch_and_xor_1,"ax",@progbits
	.globl	__sync_fetch_and_xor_1
__sync_fetch_and_xor_1:
	mv	a5,a0
	lbu	a0,0(a0)
	xor	a1,a0,a1
	sb	a1,0(a5)
	ret
	.globl	__atomic_fetch_xor_1
	.set	__atomic_fetch_xor_1,__sync_fetch_and_xor_1
	.section	.text.__sync_xor_and_fetch_1,"ax",@progbits
	.globl	__sync_xor_and_fetch_1
__sync_xor_and_fetch_1:
	lbu	a4,0(a0)
	mv	a5,a0
	xor	a0,a1,a4
	sb	a0,0(a5)
	ret
	.globl	__atomic_xor_fetch_1
	.set	__atomic_xor_fetch_1,__sync_xor_and_fetch_1
	.section	.text.__sync_fetch_and_nand_1,"ax",@progbits
	.globl	__sync_fetch_and_nand_1
__sync_fetch_and_nand_1:
	mv	a5,a0
	lbu	a0,0(a0)
	and	a1,a0,a1
	not	a1,a1
	sb	a1,0(a5)
	ret
	.globl	__atomic_fetch_nand_1
	.set	__atomic_fetch_nand_1,__sync_fetch_and_nand_1
	.section	.text.__sync_nand_and_fetch_1,"ax",@progbits
	.globl	__sync_nand_and_fetch_1
__sync_nand_and_fetch_1:
	lbu	a4,0(a0)
	mv	a5,a0
	and	a1,a1,a4
	not	a1,a1
	andi	a0,a1,0xff
	sb	a0,0(a5)
	ret
	.globl	__atomic_nand_fetch_1
	.set	__atomic_nand_fetch_1,__sync_nand_and_fetch_1
	.section	.text.__atomic_load_1,"ax",@progbits
	.globl	__atomic_load_1
__atomic_load_1:
	lbu	a0,0(a0)
	ret
	.section	.text.__atomic_store_1,"ax",@progbits
	.globl	__atomic_store_1
__atomic_store_1:
	sb	a1,0(a0)
	ret
	.section	.text.__sync_lock_release_1,"ax",@progbits
	.globl	__sync_lock_release_1
__sync_lock_release_1:
	sb	zero,0(a0)
	ret
	.section	.text.__atomic_exchange_1,"ax",@progbits
	.globl	__atomic_exchange_1
__atomic_exchange_1:
	mv	a5,a0
	lbu	a0,0(a0)
	sb	a1,0(a5)
	ret
	.globl	__sync_lock_test_and_set_1
	.set	__sync_lock_test_and_set_1,__atomic_exchange_1
	.section	.text.__sync_val_compare_and_swap_1,"ax",@progbits
	.globl	__sync_val_compare_and_swap_1
__sync_val_compare_and_swap_1:
	mv	a5,a0
	lbu	a0,0(a0)
	beq	a0,a1,.L20
	ret
.L20:
	sb	a2,0(a5)
	ret
	.section	.text.__sync_bool_compare_and_swap_1,"ax",@progbits
	.globl	__sync_bool_compare_and_swap_1
__sync_bool_compare_and_swap_1:
	lbu	a5,0(a0)
	bne	a1,a5,.L22
	sb	a2,0(a0)
.L22:
	sub	a1,a1,a5
	seqz	a0,a1
	ret
	.section	.text.__atomic_compare_exchange_1,"ax",@progbits
	.globl	__atomic_compare_exchange_1
__atomic_compare_exchange_1:
	lbu	a5,0(a1)
	lbu	a4,0(a0)
	bne	a5,a4,.L24
	sb	a2,0(a0)
.L24:
	sub	a0,a5,a4
	sb	a4,0(a1)
	seqz	a0,a0
	ret
	.section	.text.__sync_fetch_and_add_2,"ax",@progbits
	.globl	__sync_fetch_and_add_2
__sync_fetch_and_add_2:
	mv	a5,a0
	lhu	a0,0(a0)
	add	a1,a0,a1
	sh	a1,0(a5)
	ret
	.globl	__atomic_fetch_add_2
	.set	__atomic_fetch_add_2,__sync_fetch_and_add_2
	.section	.text.__sync_add_and_fetch_2,"ax",@progbits
	.globl	__sync_add_and_fetch_2
__sync_add_and_fetch_2:
	lhu	a4,0(a0)
	mv	a5,a0
	add	a1,a1,a4
	slli	a0,a1,16
	srli	a0,a0,16
	sh	a0,0(a5)
	ret
	.globl	__atomic_add_fetch_2
	.set	__atomic_add_fetch_2,__sync_add_and_fetch_2
	.section	.text.__sync_fetch_and_sub_2,"ax",@progbits
	.globl	__sync_fetch_and_sub_2
__sync_fetch_and_sub_2:
	mv	a5,a0
	lhu	a0,0(a0)
	sub	a1,a0,a1
	sh	a1,0(a5)
	ret
	.globl	__atomic_fetch_sub_2
	.set	__atomic_fetch_sub_2,__sync_fetch_and_sub_2
	.section	.text.__sync_sub_and_fetch_2,"ax",@progbits
	.globl	__sync_sub_and_fetch_2
__sync_sub_and_fetch_2:
	lhu	a5,0(a0)
	mv	a4,a0
	sub	a5,a5,a1
	slli	a0,a5,16
	srli	a0,a0,16
	sh	a0,0(a4)
	ret
	.globl	__atomic_sub_fetch_2
	.set	__atomic_sub_fetch_2,__sync_sub_and_fetch_2
	.section	.text.__sync_fetch_and_or_2,"ax",@progbits
	.globl	__sync_fetch_and_or_2
__sync_fetch_and_or_2:
	mv	a5,a0
	lhu	a0,0(a0)
	or	a1,a0,a1
	sh	a1,0(a5)
	ret
	.globl	__atomic_fetch_or_2
	.set	__atomic_fetch_or_2,__sync_fetch_and_or_2
	.section	.text.__sync_or_and_fetch_2,"ax",@progbits
	.globl	__sync_or_and_fetch_2
__sync_or_and_fetch_2:
	lhu	a4,0(a0)
	mv	a5,a0
	or	a0,a1,a4
	sh	a0,0(a5)
	ret
	.globl	__atomic_or_fetch_2
	.set	__atomic_or_fetch_2,__sync_or_and_fetch_2
	.section	.text.__sync_fetch_and_and_2,"ax",@progbits
	.globl	__sync_fetch_and_and_2
__sync_fetch_and_and_2:
	mv	a5,a0
	lhu	a0,0(a0)
	and	a1,a0,a1
	sh	a1,0(a5)
	ret
	.globl	__atomic_fetch_and_2
	.set	__atomic_fetch_and_2,__sync_fetch_and_and_2
	.section	.text.__sync_and_and_fetch_2,"ax",@progbits
	.globl	__sync_and_and_fetch_2
__sync_and_and_fetch_2:
	lhu	a4,0(a0)
	mv	a5,a0
	and	a0,a1,a4
	sh	a0,0(a5)
	ret
	.globl	__atomic_and_fetch_2
	.set	__atomic_and_fetch_2,__sync_and_and_fetch_2
	.section	.text.__sync_fetch_and_xor_2,"ax",@progbits
	.globl	__sync_fetch_and_xor_2
__sync_fetch_and_xor_2:
	mv	a5,a0
	lhu	a0,0(a0)
	xor	a1,a0,a1
	sh	a1,0(a5)
	ret
	.globl	__atomic_fetch_xor_2
	.set	__atomic_fetch_xor_2,__sync_fetch_and_xor_2
	.section	.text.__sync_xor_and_fetch_2,"ax",@progbits
	.globl	__sync_xor_and_fetch_2
__sync_xor_and_fetch_2:
	lhu	a4,0(a0)
	mv	a5,a0
	xor	a0,a1,a4
	sh	a0,0(a5)
	ret
	.globl	__atomic_xor_fetch_2
	.set	__atomic_xor_fetch_2,__sync_xor_and_fetch_2
	.section	.text.__sync_fetch_and_nand_2,"ax",@progbits
	.globl	__sync_fetch_and_nand_2
__sync_fetch_and_nand_2:
	mv	a5,a0
	lhu	a0,0(a0)
	and	a1,a0,a1
	not	a1,a1
	sh	a1,0(a5)
	ret
	.globl	__atomic_fetch_nand_2
	.set	__atomic_fetch_nand_2,__sync_fetch_and_nand_2
	.section	.text.__sync_nand_and_fetch_2,"ax",@progbits
	.globl	__sync_nand_and_fetch_2
__sync_nand_and_fetch_2:
	lhu	a4,0(a0)
	mv	a5,a0
	and	a1,a1,a4
	not	a1,a1
	slli	a0,a1,16
	srli	a0,a0,16
	sh	a0,0(a5)
	ret
	.globl	__atomic_nand_fetch_2
	.set	__atomic_nand_fetch_2,__sync_nand_and_fetch_2
	.section	.text.__atomic_load_2,"ax",@progbits
	.globl	__atomic_load_2
__atomic_load_2:
	lhu	a0,0(a0)
	ret
	.section	.text.__atomic_store_2,"ax",@progbits
	.globl	__atomic_store_2
__atomic_store_2:
	sh	a1,0(a0)
	ret
	.section	.text.__sync_lock_release_2,"ax",@progbits
	.globl	__sync_lock_release_2
__sync_lock_release_2:
	sh	zero,0(a0)
	ret
	.section	.text.__atomic_exchange_2,"ax",@progbits
	.globl	__atomic_exchange_2
__atomic_exchange_2:
	mv	a5,a0
	lhu	a0,0(a0)
	sh	a1,0(a5)
	ret
	.globl	__sync_lock_test_and_set_2
	.set	__sync_lock_test_and_set_2,__atomic_exchange_2
	.section	.text.__sync_val_compare_and_swap_2,"ax",@progbits
	.globl	__sync_val_compare_and_swap_2
__sync_val_compare_and_swap_2:
	mv	a5,a0
	lhu	a0,0(a0)
	beq	a0,a1,.L43
	ret
.L43:
	sh	a2,0(a5)
	ret
	.section	.text.__sync_bool_compare_and_swap_2,"ax",@progbits
	.globl	__sync_bool_compare_and_swap_2
__sync_bool_compare_and_swap_2:
	lhu	a5,0(a0)
	bne	a1,a5,.L45
	sh	a2,0(a0)
.L45:
	sub	a1,a1,a5
	seqz	a0,a1
	ret
	.section	.text.__atomic_compare_exchange_2,"ax",@progbits
	.globl	__atomic_compare_exchange_2
__atomic_compare_exchange_2:
	lhu	a5,0(a1)
	lhu	a4,0(a0)
	bne	a5,a4,.L47
	sh	a2,0(a0)
.L47:
	sub	a0,a5,a4
	sh	a4,0(a1)
	seqz	a0,a0
	ret
	.section	.text.__sync_fetch_and_add_4,"ax",@progbits
	.globl	__sync_fetch_and_add_4
__sync_fetch_and_add_4:
	mv	a5,a0
	lw	a0,0(a0)
	add	a1,a0,a1
	sw	a1,0(a5)
	ret
	.globl	__atomic_fetch_add_4
	.set	__atomic_fetch_add_4,__sync_fetch_and_add_4
	.section	.text.__sync_add_and_fetch_4,"ax",@progbits
	.globl	__sync_add_and_fetch_4
__sync_add_and_fetch_4:
	lw	a4,0(a0)
	mv	a5,a0
	add	a0,a1,a4
	sw	a0,0(a5)
	ret
	.globl	__atomic_add_fetch_4
	.set	__atomic_add_fetch_4,__sync_add_and_fetch_4
	.section	.text.__sync_fetch_and_sub_4,"ax",@progbits
	.globl	__sync_fetch_and_sub_4
__sync_fetch_and_sub_4:
	mv	a5,a0
	lw	a0,0(a0)
	sub	a1,a0,a1
	sw	a1,0(a5)
	ret
	.globl	__atomic_fetch_sub_4
	.set	__atomic_fetch_sub_4,__sync_fetch_and_sub_4
	.section	.text.__sync_sub_and_fetch_4,"ax",@progbits
	.globl	__sync_sub_and_fetch_4
__sync_sub_and_fetch_4:
	lw	a5,0(a0)
	mv	a4,a0
	sub	a0,a5,a1
	sw	a0,0(a4)
	ret
	.globl	__atomic_sub_fetch_4
	.set	__atomic_sub_fetch_4,__sync_sub_and_fetch_4
	.section	.text.__sync_fetch_and_or_4,"ax",@progbits
	.globl	__sync_fetch_and_or_4
__sync_fetch_and_or_4:
	mv	a5,a0
	lw	a0,0(a0)
	or	a1,a0,a1
	sw	a1,0(a5)
	ret
	.globl	__atomic_fetch_or_4
	.set	__atomic_fetch_or_4,__sync_fetch_and_or_4
	.section	.text.__sync_or_and_fetch_4,"ax",@progbits
	.globl	__sync_or_and_fetch_4
__sync_or_and_fetch_4:
	lw	a4,0(a0)
	mv	a5,a0
	or	a0,a1,a4
	sw	a0,0(a5)
	ret
	.globl	__atomic_or_fetch_4
	.set	__atomic_or_fetch_4,__sync_or_and_fetch_4
	.section	.text.__sync_fetch_and_and_4,"ax",@progbits
	.globl	__sync_fetch_and_and_4
__sync_fetch_and_and_4:
	mv	a5,a0
	lw	a0,0(a0)
	and	a1,a0,a1
	sw	a1,0(a5)
	ret
	.globl	__atomic_fetch_and_4
	.set	__atomic_fetch_and_4,__sync_fetch_and_and_4
	.section	.text.__sync_and_and_fetch_4,"ax",@progbits
	.globl	__sync_and_and_fetch_4
__sync_and_and_fetch_4:
	lw	a4,0(a0)
	mv	a5,a0
	and	a0,a1,a4
	sw	a0,0(a5)
	ret
	.globl	__atomic_and_fetch_4
	.set	__atomic_and_fetch_4,__sync_and_and_fetch_4
	.section	.text.__sync_fetch_and_xor_4,"ax",@progbits
	.globl	__sync_fetch_and_xor_4
__sync_fetch_and_xor_4:
	mv	a5,a0
	lw	a0,0(a0)
	xor	a1,a0,a1
	sw	a1,0(a5)
	ret
	.globl	__atomic_fetch_xor_4
	.set	__atomic_fetch_xor_4,__sync_fetch_and_xor_4
	.section	.text.__sync_xor_and_fetch_4,"ax",@progbits
	.globl	__sync_xor_and_fetch_4
__sync_xor_and_fetch_4:
	lw	a4,0(a0)
	mv	a5,a0
	xor	a0,a1,a4
	sw	a0,0(a5)
	ret
	.globl	__atomic_xor_fetch_4
	.set	__atomic_xor_fetch_4,__sync_xor_and_fetch_4
	.section	.text.__sync_fetch_and_nand_4,"ax",@progbits
	.globl	__sync_fetch_and_nand_4
__sync_fetch_and_nand_4:
	mv	a5,a0
	lw	a0,0(a0)
	and	a1,a0,a1
	not	a1,a1
	sw	a1,0(a5)
	ret
	.globl	__atomic_fetch_nand_4
	.set	__atomic_fetch_nand_4,__sync_fetch_and_nand_4
	.section	.text.__sync_nand_and_fetch_4,"ax",@progbits
	.globl	__sync_nand_and_fetch_4
__sync_nand_and_fetch_4:
	lw	a4,0(a0)
	mv	a5,a0
	and	a1,a1,a4
	not	a0,a1
	sw	a0,0(a5)
	ret
	.globl	__atomic_nand_fetch_4
	.set	__atomic_nand_fetch_4,__sync_nand_and_fetch_4
	.section	.text.__atomic_load_4,"ax",@progbits
	.globl	__atomic_load_4
__atomic_load_4:
	lw	a0,0(a0)
	ret
	.section	.text.__atomic_store_4,"ax",@progbits
	.globl	__atomic_store_4
__atomic_store_4:
	sw	a1,0(a0)
	ret
	.section	.text.__sync_lock_release_4,"ax",@progbits
	.globl	__sync_lock_release_4
__sync_lock_release_4:
	sw	zero,0(a0)
	ret
	.section	.text.__atomic_exchange_4,"ax",@progbits
	.globl	__atomic_exchange_4
__atomic_exchange_4:
	mv	a5,a0
	lw	a0,0(a0)
	sw	a1,0(a5)
	ret
	.globl	__sync_lock_test_and_set_4
	.set	__sync_lock_test_and_set_4,__atomic_exchange_4
	.section	.text.__sync_val_compare_and_swap_4,"ax",@progbits
	.globl	__sync_val_compare_and_swap_4
__sync_val_compare_and_swap_4:
	mv	a5,a0
	lw	a0,0(a0)
	beq	a0,a1,.L66
	ret
.L66:
	sw	a2,0(a5)
	ret
	.section	.text.__sync_bool_compare_and_swap_4,"ax",@progbits
	.globl	__sync_bool_compare_and_swap_4
__sync_bool_compare_and_swap_4:
	lw	a5,0(a0)
	bne	a1,a5,.L68
	sw	a2,0(a0)
.L68:
	sub	a1,a1,a5
	seqz	a0,a1
	ret
	.section	.text.__atomic_compare_exchange_4,"ax",@progbits
	.globl	__atomic_compare_exchange_4
__atomic_compare_exchange_4:
	lw	a5,0(a1)
	lw	a4,0(a0)
	bne	a5,a4,.L70
	sw	a2,0(a0)
.L70:
	sub	a0,a5,a4
	sw	a4,0(a1)
	seqz	a0,a0
	ret
	.section	.text.__sync_fetch_and_add_8,"ax",@progbits
	.globl	__sync_fetch_and_add_8
__sync_fetch_and_add_8:
	mv	a5,a0
	lw	a0,0(a0)
	lw	a3,4(a5)
	add	a1,a0,a1
	sltu	a4,a1,a0
	add	a2,a3,a2
	add	a4,a4,a2
	sw	a1,0(a5)
	sw	a4,4(a5)
	mv	a1,a3
	ret
	.globl	__atomic_fetch_add_8
	.set	__atomic_fetch_add_8,__sync_fetch_and_add_8
	.section	.text.__sync_add_and_fetch_8,"ax",@progbits
	.globl	__sync_add_and_fetch_8
__sync_add_and_fetch_8:
	mv	a5,a0
	lw	a0,0(a0)
	lw	a4,4(a5)
	add	a0,a1,a0
	sltu	a1,a0,a1
	add	a2,a2,a4
	add	a1,a1,a2
	sw	a0,0(a5)
	sw	a1,4(a5)
	ret
	.globl	__atomic_add_fetch_8
	.set	__atomic_add_fetch_8,__sync_add_and_fetch_8
	.section	.text.__sync_fetch_and_sub_8,"ax",@progbits
	.globl	__sync_fetch_and_sub_8
__sync_fetch_and_sub_8:
	mv	a5,a0
	lw	a0,0(a0)
	lw	a4,4(a5)
	sub	a1,a0,a1
	sgtu	a3,a1,a0
	sub	a2,a4,a2
	sub	a2,a2,a3
	sw	a1,0(a5)
	sw	a2,4(a5)
	mv	a1,a4
	ret
	.globl	__atomic_fetch_sub_8
	.set	__atomic_fetch_sub_8,__sync_fetch_and_sub_8
	.section	.text.__sync_sub_and_fetch_8,"ax",@progbits
	.globl	__sync_sub_and_fetch_8
__sync_sub_and_fetch_8:
	lw	a3,0(a0)
	lw	a5,4(a0)
	mv	a4,a0
	sub	a0,a3,a1
	sgtu	a3,a0,a3
	sub	a1,a5,a2
	sub	a1,a1,a3
	sw	a0,0(a4)
	sw	a1,4(a4)
	ret
	.globl	__atomic_sub_fetch_8
	.set	__atomic_sub_fetch_8,__sync_sub_and_fetch_8
	.section	.text.__sync_fetch_and_or_8,"ax",@progbits
	.globl	__sync_fetch_and_or_8
__sync_fetch_and_or_8:
	mv	a5,a0
	lw	a4,4(a5)
	lw	a0,0(a0)
	or	a2,a4,a2
	or	a1,a0,a1
	sw	a1,0(a5)
	sw	a2,4(a5)
	mv	a1,a4
	ret
	.globl	__atomic_fetch_or_8
	.set	__atomic_fetch_or_8,__sync_fetch_and_or_8
	.section	.text.__sync_or_and_fetch_8,"ax",@progbits
	.globl	__sync_or_and_fetch_8
__sync_or_and_fetch_8:
	mv	a5,a0
	lw	a4,4(a5)
	lw	a0,0(a0)
	or	a0,a0,a1
	or	a1,a4,a2
	sw	a0,0(a5)
	sw	a1,4(a5)
	ret
	.globl	__atomic_or_fetch_8
	.set	__atomic_or_fetch_8,__sync_or_and_fetch_8
	.section	.text.__sync_fetch_and_and_8,"ax",@progbits
	.globl	__sync_fetch_and_and_8
__sync_fetch_and_and_8:
	mv	a5,a0
	lw	a4,4(a5)
	lw	a0,0(a0)
	and	a2,a4,a2
	and	a1,a0,a1
	sw	a1,0(a5)
	sw	a2,4(a5)
	mv	a1,a4
	ret
	.globl	__atomic_fetch_and_8
	.set	__atomic_fetch_and_8,__sync_fetch_and_and_8
	.section	.text.__sync_and_and_fetch_8,"ax",@progbits
	.globl	__sync_and_and_fetch_8
__sync_and_and_fetch_8:
	mv	a5,a0
	lw	a4,4(a5)
	lw	a0,0(a0)
	and	a0,a0,a1
	and	a1,a4,a2
	sw	a0,0(a5)
	sw	a1,4(a5)
	ret
	.globl	__atomic_and_fetch_8
	.set	__atomic_and_fetch_8,__sync_and_and_fetch_8
	.section	.text.__sync_fetch_and_xor_8,"ax",@progbits
	.globl	__sync_fetch_and_xor_8
__sync_fetch_and_xor_8:
	mv	a5,a0
	lw	a4,4(a5)
	lw	a0,0(a0)
	xor	a2,a4,a2
	xor	a1,a0,a1
	sw	a1,0(a5)
	sw	a2,4(a5)
	mv	a1,a4
	ret
	.globl	__atomic_fetch_xor_8
	.set	__atomic_fetch_xor_8,__sync_fetch_and_xor_8
	.section	.text.__sync_xor_and_fetch_8,"ax",@progbits
	.globl	__sync_xor_and_fetch_8
__sync_xor_and_fetch_8:
	mv	a5,a0
	lw	a4,4(a5)
	lw	a0,0(a0)
	xor	a0,a0,a1
	xor	a1,a4,a2
	sw	a0,0(a5)
	sw	a1,4(a5)
	ret
	.globl	__atomic_xor_fetch_8
	.set	__atomic_xor_fetch_8,__sync_xor_and_fetch_8
	.section	.text.__sync_fetch_and_nand_8,"ax",@progbits
	.globl	__sync_fetch_and_nand_8
__sync_fetch_and_nand_8:
	mv	a5,a0
	lw	a4,4(a5)
	lw	a0,0(a0)
	and	a2,a4,a2
	and	a1,a0,a1
	not	a1,a1
	not	a2,a2
	sw	a1,0(a5)
	sw	a2,4(a5)
	mv	a1,a4
	ret
	.globl	__atomic_fetch_nand_8
	.set	__atomic_fetch_nand_8,__sync_fetch_and_nand_8
	.section	.text.__sync_nand_and_fetch_8,"ax",@progbits
	.globl	__sync_nand_and_fetch_8
__sync_nand_and_fetch_8:
	lw	a4,0(a0)
	lw	a5,4(a0)
	mv	a3,a0
	and	a4,a4,a1
	and	a1,a5,a2
	not	a0,a4
	not	a1,a1
	sw	a0,0(a3)
	sw	a1,4(a3)
	ret
	.globl	__atomic_nand_fetch_8
	.set	__atomic_nand_fetch_8,__sync_nand_and_fetch_8
	.section	.text.__atomic_load_8,"ax",@progbits
	.globl	__atomic_load_8
__atomic_load_8:
	lw	a1,4(a0)
	lw	a0,0(a0)
	ret
	.section	.text.__atomic_store_8,"ax",@progbits
	.globl	__atomic_store_8
__atomic_store_8:
	sw	a1,0(a0)
	sw	a2,4(a0)
	ret
	.section	.text.__sync_lock_release_8,"ax",@progbits
	.globl	__sync_lock_release_8
__sync_lock_release_8:
	li	a5,0
	li	a6,0
	sw	a5,0(a0)
	sw	a6,4(a0)
	ret
	.section	.text.__atomic_exchange_8,"ax",@progbits
	.globl	__atomic_exchange_8
__atomic_exchange_8:
	lw	a7,4(a0)
	lw	a6,0(a0)
	sw	a2,4(a0)
	sw	a1,0(a0)
	mv	a0,a6
	mv	a1,a7
	ret
	.globl	__sync_lock_test_and_set_8
	.set	__sync_lock_test_and_set_8,__atomic_exchange_8
	.section	.text.__sync_val_compare_and_swap_8,"ax",@progbits
	.globl	__sync_val_compare_and_swap_8
__sync_val_compare_and_swap_8:
	mv	a5,a0
	lw	a0,0(a0)
	mv	a6,a1
	lw	a1,4(a5)
	beq	a0,a6,.L89
.L87:
	ret
.L89:
	bne	a1,a2,.L87
	sw	a3,0(a5)
	sw	a4,4(a5)
	ret
	.section	.text.__sync_bool_compare_and_swap_8,"ax",@progbits
	.globl	__sync_bool_compare_and_swap_8
__sync_bool_compare_and_swap_8:
	lw	a5,0(a0)
	lw	a6,4(a0)
	beq	a1,a5,.L92
.L91:
	xor	a1,a1,a5
	xor	a2,a2,a6
	or	a0,a1,a2
	seqz	a0,a0
	ret
.L92:
	bne	a2,a6,.L91
	xor	a1,a1,a5
	xor	a2,a2,a6
	sw	a3,0(a0)
	sw	a4,4(a0)
	or	a0,a1,a2
	seqz	a0,a0
	ret
	.section	.text.__atomic_compare_exchange_8,"ax",@progbits
	.globl	__atomic_compare_exchange_8
__atomic_compare_exchange_8:
	lw	a5,0(a1)
	lw	a6,0(a0)
	lw	a4,4(a1)
	lw	a7,4(a0)
	beq	a5,a6,.L95
.L94:
	xor	a0,a5,a6
	xor	a4,a4,a7
	or	a0,a0,a4
	sw	a6,0(a1)
	sw	a7,4(a1)
	seqz	a0,a0
	ret
.L95:
	bne	a4,a7,.L94
	sw	a2,0(a0)
	sw	a3,4(a0)
	xor	a4,a4,a7
	xor	a0,a5,a6
	or	a0,a0,a4
	sw	a6,0(a1)
	sw	a7,4(a1)
	seqz	a0,a0
	ret
	.section	.text.__atomic_load,"ax",@progbits
	.globl	__atomic_load
__atomic_load:
	beq	a0,zero,.L96
	add	a0,a1,a0
.L98:
	lbu	a5,0(a1)
	addi	a1,a1,1
	addi	a2,a2,1
	sb	a5,-1(a2)
	bne	a1,a0,.L98
.L96:
	ret
	.section	.text.__atomic_store,"ax",@progbits
	.globl	__atomic_store
__atomic_store:
	beq	a0,zero,.L103
	add	a0,a2,a0
.L105:
	lbu	a5,0(a2)
	addi	a2,a2,1
	addi	a1,a1,1
	sb	a5,-1(a1)
	bne	a2,a0,.L105
.L103:
	ret
	.section	.text.__atomic_exchange,"ax",@progbits
	.globl	__atomic_exchange
__atomic_exchange:
	beq	a0,zero,.L110
	add	a6,a1,a0
	mv	a5,a1
.L112:
	lbu	a4,0(a5)
	addi	a5,a5,1
	addi	a3,a3,1
	sb	a4,-1(a3)
	bne	a5,a6,.L112
	add	a0,a2,a0
.L114:
	lbu	a5,0(a2)
	addi	a2,a2,1
	addi	a1,a1,1
	sb	a5,-1(a1)
	bne	a2,a0,.L114
.L110:
	ret
	.section	.text.__atomic_compare_exchange,"ax",@progbits
	.globl	__atomic_compare_exchange
__atomic_compare_exchange:
	beq	a0,zero,.L121
	mv	a5,a1
	mv	a4,a2
	add	t1,a0,a1
	j	.L125
.L122:
	beq	t1,a5,.L135
.L125:
	lbu	a7,0(a5)
	lbu	a6,0(a4)
	addi	a5,a5,1
	addi	a4,a4,1
	beq	a7,a6,.L122
.L123:
	lbu	a5,0(a1)
	addi	a1,a1,1
	addi	a2,a2,1
	sb	a5,-1(a2)
	bne	a1,t1,.L123
	li	a0,0
	ret
.L135:
	add	a5,a3,a0
.L127:
	lbu	a4,0(a3)
	addi	a3,a3,1
	addi	a1,a1,1
	sb	a4,-1(a1)
	bne	a3,a5,.L127
.L121:
	li	a0,1
	ret
	.section	.text.__atomic_is_lock_free,"ax",@progbits
	.globl	__atomic_is_lock_free
__atomic_is_lock_free:
	li	a0,1
	ret
	.ident	"GCC: (12.2.0-14+deb12u1+11+b2) 12.2.0"
