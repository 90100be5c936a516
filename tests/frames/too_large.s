# refused: plan takes 32776 bytes, over the limit of 32768
	.globl plan
	.type plan, @function
plan:
	lea -0x6000(%rsp), %r11
1:	sub $0x1000, %rsp
	movq $0, (%rsp)
	cmp %r11, %rsp
	jne 1b
	call scratch
	add $0x6000, %rsp
	ret
	.type scratch, @function
scratch:
	sub $0x1ff8, %rsp
	add $0x1ff8, %rsp
	ret
