# refused: left_wall calls itself round about: left_wall > right_wall > left_wall
	.globl left_wall
	.type left_wall, @function
left_wall:
	sub $8, %rsp
	call right_wall
	add $8, %rsp
	ret
	.type right_wall, @function
right_wall:
	dec %rdi
	jne left_wall
	ret
