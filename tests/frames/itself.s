# refused: number_of calls itself: number_of > number_of
	.globl number_of
	.type number_of, @function
number_of:
	push %rbx
	mov %rdi, %rbx
	test %rdi, %rdi
	je 1f
	lea -1(%rdi), %rdi
	call number_of
1:	lea 1(%rax), %rax
	pop %rbx
	ret
