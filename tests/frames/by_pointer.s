# refused: visit: a call by a pointer
	.globl visit
	.type visit, @function
visit:
	sub $8, %rsp
	call *%rdi
	add $8, %rsp
	ret
