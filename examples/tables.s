# Tables for tables.c, written by hand: addresses of functions and strings, distances, a weak and a common symbol, and data of each thread.
# Nothing is aligned: x86-64 reads these fields anywhere, and tables.c says so of their types.

	.file "tables.s"
	.ident "tables by hand"

# Addresses stand in a section that is written once, when the program is loaded.
	.section .data.rel.ro,"aw",@progbits

	.globl operations
	.type operations,@object
operations:				# functions of tables.c, and one of this file
	.quad add, subtract
	.quad negate
	.set count,(.-operations)/8
	.size operations,.-operations

	.globl names
	.type names,@object
names:					# strings; the last one is the end of another
	.quad 1f, 2f, 2f+3
	.size names,.-names
	.pushsection .rodata.str1.1,"aMS",@progbits,1
1:	.asciz "add"
2:	.string "subtract"
	.popsection

	.globl hooks
	.type hooks,@object
hooks:					# one is defined in tables.c, and the other nowhere
	.weak present, missing
	.quad present, missing
	.size hooks,.-hooks

	.globl total_at
	.type total_at,@object
total_at:				# the third field of a common symbol, of which tables.c has a declaration alone
	.quad totals+2*8
	.size total_at,.-total_at
	.comm totals,4*8,16

# Distances need nothing of the loader, so they may stand with data that is only read. The function of tables.c must be of the same program or
# library: it is hidden.
	.section .rodata
	.globl jumps, how_many, greeting_from_here
	.type jumps,@object
	.hidden square
jumps:
	.long .Lsame-jumps, .Ltwice-jumps, square-jumps, negate-jumps
	.size jumps,.-jumps

how_many:
	.long count
	.long .Lend-.Lsame		# how long the code below is
	.size how_many,.-how_many

greeting_from_here:			# how far it is from here to the string
	.long .Lgreeting-.
	.size greeting_from_here,.-greeting_from_here

.Lgreeting:
	.asciz "hello"

# What jumps leads to: int f(int).
	.text
.Lsame:
	endbr64
	.byte 0x89, 0xf8		# mov %edi,%eax
	ret
.Ltwice:
	endbr64
	.byte 0x8d, 0x04, 0x3f		# lea (%rdi,%rdi),%eax
	ret
	.type negate,@function
negate:
	endbr64
	.byte 0x89, 0xf8, 0xf7, 0xd8	# mov %edi,%eax; neg %eax
	ret
	.size negate,.-negate
.Lend:

# Each thread has its own of these.
	.section .tdata,"awT",@progbits
	.globl own, own_space
own:
	.long 40
	.size own,4
	.section .tbss,"awT",@nobits
own_space:
	.zero 16
	.size own_space,.-own_space

	.section .note.GNU-stack,"",@progbits
