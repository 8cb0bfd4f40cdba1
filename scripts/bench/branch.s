// A loop that never ends, of branches and calls: half of its instructions go elsewhere than to the next one.
    .text
start:
    mov     x0, #0
    mov     x1, #1              // stays odd, so it is never zero
    adr     x9, leaf
loop:
    bl      leaf
    cbz     x1, never
    tbnz    x1, #0, over
    add     x0, x0, #1
over:
    blr     x9
    tst     x0, #4
    b.eq    even
    add     x3, x3, #1
    b       on
even:
    add     x4, x4, #1
on:
    bl      nest
    tbz     x0, #1, skip
    sub     x5, x5, #1
skip:
    add     x1, x1, #2
    cmp     x1, x0
    b.ne    loop
    b       loop
never:
    b       never
leaf:
    add     x0, x0, #3
    ret
nest:
    mov     x10, x30
    bl      leaf
    cbnz    x0, back
    add     x6, x6, #1
back:
    ret     x10
