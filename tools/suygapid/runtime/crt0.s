# Where a sandbox begins: leaves room above the stack, calls the constructors and then main, and exits with what that answers.
# argc is 1. argv lies above the stack, where all is 0 at first: argv[0] is the address of argv[1], NULL, and so an empty string,
# as the C standard has it where no name is known.
	.section .sfi.start,"ax",@progbits
	.globl _sfi_start
	.type _sfi_start, @function
_sfi_start:
	lui	t0,%hi(__sfi_above)
	addi	t0,t0,%lo(__sfi_above)
	sub	sp,sp,t0
	call	__sfi_begin
	li	a0,1
	addi	a1,sp,4
	sw	a1,0(sp)
	mv	a1,sp
	call	__sfi_main
	call	exit_with
	.size _sfi_start, .-_sfi_start

# Of a program without constructors. That of constructors.c takes its place in the others.
	.section .text.__sfi_begin,"ax",@progbits
	.weak __sfi_begin
	.type __sfi_begin, @function
__sfi_begin:
	ret
	.size __sfi_begin, .-__sfi_begin
