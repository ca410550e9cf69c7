# Functions with stacks of many forms, and a main that calls them, for checks/steps.py. No directive says where anything is saved.
        .text

# A frame pointer, and room.
        .globl framed
        .type framed,@function
framed: push %rbp
        mov %rsp,%rbp
        sub $32,%rsp
        mov %rdi,-8(%rbp)
        mov -8(%rbp),%rax
        add %rax,%rax
        leave
        ret
        .size framed,.-framed

# All registers that calls keep, pushed, and used around calls.
        .type pushes,@function
pushes: push %r15
        push %r14
        push %r13
        push %r12
        push %rbp
        push %rbx
        sub $8,%rsp
        mov %rdi,%rbx
        xor %ebp,%ebp
        mov $3,%r12d
        mov $4,%r13d
        mov $5,%r14d
        mov $6,%r15d
1:      mov %rbx,%rdi
        call framed
        add %rax,%rbp
        dec %rbx
        jnz 1b
        lea (%rbp,%r12),%rax
        add %r13,%rax
        add $8,%rsp
        pop %rbx
        pop %rbp
        pop %r12
        pop %r13
        pop %r14
        pop %r15
        ret
        .size pushes,.-pushes

# Registers stored into room that was made before, and loaded again.
        .type stores,@function
stores: sub $40,%rsp
        mov %rbx,8(%rsp)
        mov %r12,16(%rsp)
        mov %rdi,%rbx
        mov %rdi,%r12
        call framed
        add %rbx,%rax
        sub %r12,%rax
        mov 8(%rsp),%rbx
        mov 16(%rsp),%r12
        add $40,%rsp
        ret
        .size stores,.-stores

# A stack that is aligned, under a frame pointer.
        .type aligns,@function
aligns: push %rbp
        mov %rsp,%rbp
        push %rbx
        push %r12
        and $-64,%rsp
        sub $64,%rsp
        mov %rdi,%rbx
        mov %rdi,(%rsp)
        call framed
        mov (%rsp),%r12
        add %r12,%rax
        lea -16(%rbp),%rsp
        pop %r12
        pop %rbx
        pop %rbp
        ret
        .size aligns,.-aligns

# As much room as is asked for.
        .type rooms,@function
rooms:  push %rbp
        mov %rsp,%rbp
        push %rbx
        lea 15(%rdi),%rax
        and $-16,%rax
        sub %rax,%rsp
        mov %rsp,%rbx
        sub $8,%rsp
        movb $1,(%rbx)
        call framed
        mov -8(%rbp),%rbx
        leave
        ret
        .size rooms,.-rooms

# Two ways out, the first in the middle.
        .type two_ways,@function
two_ways:
        push %rbx
        mov %rdi,%rbx
        test $1,%dil
        jz 1f
        lea (%rbx,%rbx,2),%rax
        pop %rbx
        ret
1:      call framed
        add %rbx,%rax
        pop %rbx
        ret
        .size two_ways,.-two_ways

# It goes on elsewhere in place of a return.
        .type goes_on,@function
goes_on:
        push %rbx
        mov %rdi,%rbx
        call framed
        mov %rax,%rdi
        pop %rbx
        jmp framed
        .size goes_on,.-goes_on

# Calls of itself.
        .type sums,@function
sums:   xor %eax,%eax
        test %rdi,%rdi
        jz 2f
        push %rbx
        mov %rdi,%rbx
        dec %rdi
        call sums
        add %rbx,%rax
        pop %rbx
2:      ret
        .size sums,.-sums

# A branch that counts, a register that is free at first, and instructions that take a frame away in parts.
        .type counts,@function
counts: push %rbp
        mov %rsp,%rbp
        mov %edi,%ecx
        xor %eax,%eax
        jrcxz 2f
1:      add %rcx,%rax
        push %rax
        pop %rax
        loop 1b
2:      mov %rbp,%rsp
        pop %rbp
        .p2align 4
        ret
        .size counts,.-counts

        .globl main
        .type main,@function
main:   push %rbx
        push %r12
        sub $8,%rsp
        mov $4,%ebx
        xor %r12d,%r12d
1:      mov %rbx,%rdi
        call pushes
        add %rax,%r12
        mov %rbx,%rdi
        call stores
        add %rax,%r12
        mov %rbx,%rdi
        call aligns
        add %rax,%r12
        mov %rbx,%rdi
        call rooms
        add %rax,%r12
        mov %rbx,%rdi
        call two_ways
        add %rax,%r12
        mov %rbx,%rdi
        call goes_on
        add %rax,%r12
        mov %rbx,%rdi
        call sums
        add %rax,%r12
        mov %rbx,%rdi
        call counts
        add %rax,%r12
        dec %ebx
        jnz 1b
        mov %r12d,%eax
        and $0x7f,%eax
        add $8,%rsp
        pop %r12
        pop %rbx
        ret
        .size main,.-main
        .section .note.GNU-stack,"",@progbits
