// Adds eight numbers that it may only read, and keeps the sum in memory and on the stack. The numbers are the first 64
// bytes of the image, and the program begins after them.
    .text
numbers:
    .quad   1, 2, 4, 8, 16, 32, 64, 0x100000000

    .global start
start:
    mov     x1, #0x80030000         // data
    add     x2, x1, #0x8, lsl #12   // its end, where the stack begins
    mov     sp, x2
    adr     x3, numbers
    mov     x4, #8
next:
    ldr     x5, [x3], #8
    add     x0, x0, x5
    subs    x4, x4, #1
    b.ne    next
    str     x0, [x1]
    str     x0, [sp, #-16]!
    b       .
