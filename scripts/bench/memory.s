// A loop of 16 instructions that never ends, over one KiB after the image's room: half of them loads and stores.
    .text
start:
    mov     x0, #0x8000         // the place: from 0x108000 on, and at 0x108400 back to it
    movk    x0, #0x10, lsl #16
    mov     x1, #1              // stays odd, so it is never zero
loop:
    ldr     x2, [x0]
    add     x2, x2, x1
    str     x2, [x0], #8
    ldp     x3, x4, [x0]
    madd    x5, x2, x1, x3
    eor     x4, x4, x5, ror #13
    stp     x5, x4, [x0, #16]
    ldrb    w6, [x0, #3]
    add     w6, w6, #1
    strb    w6, [x0, #5]
    ldrh    w7, [x0, #18]
    sub     x7, x7, x6
    str     w7, [x0, #12]
    and     x0, x0, #~0x400
    add     x1, x1, #2
    cbnz    x1, loop
