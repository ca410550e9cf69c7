        .globl  answer
        .type   answer, @function
answer: .cfi_startproc
        mov     $42, %eax
        ret
        .cfi_endproc
        .size   answer, .-answer
