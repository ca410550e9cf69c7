	.text
	.globl answer, sum_to_ten, double_of
	.global greeting

answer:
	endbr64
	nop
	pause
	.byte 0xb8, 052, 0, 0, 0
	ret

sum_to_ten:
	endbr64
	.byte 0x31, 0xc0
	.byte 0xb9, 10, 0, 0, 0
.Lagain:
	.byte 0x01, 0xc8
	.byte 0xff, 0xc9
	.byte 0x75, 0xfa
	RET

double_of: endbr64
	.byte 0x48, 0x8d, 0x04, 0x3f
	ret

greeting:
	endbr64
	clc
	stc
	cmc
	cld
	lahf
	sahf
	.byte 0xb8
words: .byte 0b11101111, 0276, 0xad, 0xde
	cltq
	cwtl
	cltq
	cqto
	cltd
	.byte 0xb8, 0xef, 0xbe, 0xad, 0xde
	lfence
	mfence
	sfence
	ret

unused: more: still_unused:
	.byte
	.byte 1,2,3
	cbtw
	cwtd
	int3
	ud2
	hlt
	leave
