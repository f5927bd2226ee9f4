	.text
	.globl main
main:
	ecall
	ret
