; Calls main, and then stops at `stop`.
        .section .start,"ax",@progbits
        .global _start
_start: mov     #__stack, r1
        call    #main
        .global stop
stop:   jmp     stop
