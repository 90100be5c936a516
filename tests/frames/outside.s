# refused: load calls malloc, which is outside
	.globl load
	.type load, @function
load:
	sub $8, %rsp
	call malloc
	add $8, %rsp
	ret
