; The start of a C program on a node. Memory and registers are zero after power-on and after a reset, SP too.
        .section .start,"ax",@progbits
        .global _start
_start: mov     #__stack, r1
        call    #main
        .global stop
stop:   jmp     stop
