# Where a program begins that can be moved: sets the addresses in the data right, and goes on where any program begins.
	.section .sfi.first,"ax",@progbits
	.globl _sfi_start_movable
	.type _sfi_start_movable, @function
_sfi_start_movable:
	call	__sfi_settle
	tail	_sfi_start
	.size _sfi_start_movable, .-_sfi_start_movable
