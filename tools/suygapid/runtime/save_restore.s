# The functions that -msave-restore has prologues call, by t0, and epilogues jump to: __riscv_save_N takes a frame, and keeps ra and the
# first N of s0 to s7 in it, from its top down; __riscv_restore_N gives it back and returns. The names and what they do are libgcc's;
# its others keep registers that are the sandbox's own.

	.section .text.__riscv_save_3,"ax",@progbits
	.globl __riscv_save_0, __riscv_save_1, __riscv_save_2, __riscv_save_3
__riscv_save_0:
__riscv_save_1:
__riscv_save_2:
__riscv_save_3:
	addi sp,sp,-16
	sw ra,12(sp)
	sw s0,8(sp)
	sw s1,4(sp)
	sw s2,0(sp)
	jr t0

	.section .text.__riscv_restore_3,"ax",@progbits
	.globl __riscv_restore_0, __riscv_restore_1, __riscv_restore_2, __riscv_restore_3
__riscv_restore_0:
__riscv_restore_1:
__riscv_restore_2:
__riscv_restore_3:
	lw ra,12(sp)
	lw s0,8(sp)
	lw s1,4(sp)
	lw s2,0(sp)
	addi sp,sp,16
	ret

	.section .text.__riscv_save_7,"ax",@progbits
	.globl __riscv_save_4, __riscv_save_5, __riscv_save_6, __riscv_save_7
__riscv_save_4:
__riscv_save_5:
__riscv_save_6:
__riscv_save_7:
	addi sp,sp,-32
	sw ra,28(sp)
	sw s0,24(sp)
	sw s1,20(sp)
	sw s2,16(sp)
	sw s3,12(sp)
	sw s4,8(sp)
	sw s5,4(sp)
	sw s6,0(sp)
	jr t0

	.section .text.__riscv_restore_7,"ax",@progbits
	.globl __riscv_restore_4, __riscv_restore_5, __riscv_restore_6, __riscv_restore_7
__riscv_restore_4:
__riscv_restore_5:
__riscv_restore_6:
__riscv_restore_7:
	lw ra,28(sp)
	lw s0,24(sp)
	lw s1,20(sp)
	lw s2,16(sp)
	lw s3,12(sp)
	lw s4,8(sp)
	lw s5,4(sp)
	lw s6,0(sp)
	addi sp,sp,32
	ret

	.section .text.__riscv_save_8,"ax",@progbits
	.globl __riscv_save_8
__riscv_save_8:
	addi sp,sp,-48
	sw ra,44(sp)
	sw s0,40(sp)
	sw s1,36(sp)
	sw s2,32(sp)
	sw s3,28(sp)
	sw s4,24(sp)
	sw s5,20(sp)
	sw s6,16(sp)
	sw s7,12(sp)
	jr t0

	.section .text.__riscv_restore_8,"ax",@progbits
	.globl __riscv_restore_8
__riscv_restore_8:
	lw ra,44(sp)
	lw s0,40(sp)
	lw s1,36(sp)
	lw s2,32(sp)
	lw s3,28(sp)
	lw s4,24(sp)
	lw s5,20(sp)
	lw s6,16(sp)
	lw s7,12(sp)
	addi sp,sp,48
	ret
