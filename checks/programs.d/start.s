# The entry of each program: run(number of words, words), and its result is the status.
.section .note.GNU-stack,"",@progbits
.text
.globl _start
_start:
    xor %ebp, %ebp
    mov (%esp), %eax
    lea 4(%esp), %edx
    and $-16, %esp
    sub $8, %esp
    push %edx
    push %eax
    call run
    mov %eax, %ebx
    mov $1, %eax
    int $0x80
    hlt
