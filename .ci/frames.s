# Two functions with a frame of 91 pages: one that tests a value before the frame is there and keeps it in r11, and one that doesn't.
lost:
    mov 8(%rsi), %r11
    cmp $0x10000, %r11
    ja 2f
    push %rbx
    mov %rsp, %r11
    sub $0x5b000, %r11
1:  sub $0x1000, %rsp
    movq $0, (%rsp)
    cmp %r11, %rsp
    jne 1b
    mov %r11, (%rsp)
    add $0x5b000, %rsp
    pop %rbx
2:  ret
kept:
    push %rbx
    mov %rsp, %r11
    sub $0x5b000, %r11
1:  sub $0x1000, %rsp
    movq $0, (%rsp)
    cmp %r11, %rsp
    jne 1b
    mov 8(%rsi), %r11
    add $0x5b000, %rsp
    pop %rbx
    ret
.section .note.GNU-stack, "", @progbits
