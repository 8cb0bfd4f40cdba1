// Waits for the flag in the window, and adds the bytes of the message. Then it turns against the other: it overwrites the
// flag, which it may, and stores into the sender's memory, which it may not.
    .equ    window, 0x180000
    .equ    flag, 0x40
    .equ    sender, 0x100000
    .global start
start:
    mov     x1, #window
wait:
    ldrb    w0, [x1, #flag]
    cbz     w0, wait
    mov     x3, #0
    mov     x4, #0
next:
    ldrb    w0, [x1, x3]
    add     x4, x4, x0          // the sum
    add     x3, x3, #1
    cbnz    w0, next
    mov     w0, #0xee
    strb    w0, [x1, #flag]
    mov     x5, #sender
    strb    w0, [x5]            // no entry of this core has the byte: the core is parked here
    b       .
