# refused: go_on: a jump that goes by no table
	.globl go_on
	.type go_on, @function
go_on:
	jmp *%rdi
