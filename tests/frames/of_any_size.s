# refused: list: the stack pointer moves in a way that is not read
	.globl list
	.type list, @function
list:
	push %rbp
	mov %rsp, %rbp
	sub %rdi, %rsp
	leave
	ret
