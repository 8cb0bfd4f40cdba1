// A loop of 32 instructions that never ends: data processing alone, but for the branch back.
    .text
start:
    mov     x1, #1              // stays odd, so it is never zero
    movz    x2, #0x1234
    movk    x2, #0x5678, lsl #16
    movn    x3, #0x9
    mov     w4, #77
loop:
    add     x5, x2, x3
    subs    x6, x5, x1, lsl #3
    adc     x7, x6, x4
    and     x8, x7, #0xff00ff00ff00ff00
    orr     x9, x8, x2, ror #7
    eor     x10, x9, x3, asr #5
    bic     w11, w10, w5
    madd    x12, x10, x1, x9
    msub    w13, w12, w4, w11
    umulh   x14, x12, x10
    smull   x15, w13, w12
    udiv    x16, x12, x1
    sdiv    w17, w13, w4
    lsl     x18, x16, #9
    lsr     x19, x14, x1
    asr     w20, w15, #3
    ubfx    x21, x19, #4, #20
    bfi     x21, x18, #30, #10
    sxtb    x22, w21
    extr    x23, x22, x18, #17
    clz     x24, x23
    rbit    w25, w23
    rev     x26, x24
    cmp     x26, x25
    csel    x27, x25, x26, lo
    csinc   w28, w27, w24, eq
    ccmp    x28, #5, #2, ne
    cset    x29, cs
    add     x2, x28, w29, uxtb #2
    sub     x3, x23, #0x123
    add     x1, x1, #2
    cbnz    x1, loop
