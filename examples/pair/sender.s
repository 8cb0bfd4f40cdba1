// Puts a message into the window, and a flag after it that says so.
    .equ    window, 0x180000
    .equ    flag, 0x40
    .global start
start:
    mov     x1, #window
    adr     x2, message
    mov     x3, #0
next:
    ldrb    w0, [x2, x3]
    strb    w0, [x1, x3]
    add     x3, x3, #1
    cbnz    w0, next            // the zero at the end goes too
    mov     w0, #1
    strb    w0, [x1, #flag]     // only now: the message is whole
    b       .
message:
    .asciz  "hello"
    .balign 4
