// The vector table of a guest in C that stays at EL1 with its own stack pointer, as start.s leaves it. An interrupt saves the
// registers that C may change, and those that a further interrupt would, calls `handle_irq` and goes on where it came. At any
// other exception the core stays at its vector: of the report pc says which it was, esr_el1 why and elr_el1 where.
    .text
    .macro stay
    .balign 0x80, 0
    b       .
    .endm

    .balign 0x800, 0
    .global vectors
vectors:
    stay                        // from EL1 with SP_EL0: synchronous, IRQ, FIQ, SError
    stay
    stay
    stay
    stay                        // from EL1 with SP_EL1: synchronous
    .balign 0x80, 0             // IRQ; these are 30 of the 32 words of a vector
    sub     sp, sp, #176
    stp     x0, x1, [sp]
    stp     x2, x3, [sp, #16]
    stp     x4, x5, [sp, #32]
    stp     x6, x7, [sp, #48]
    stp     x8, x9, [sp, #64]
    stp     x10, x11, [sp, #80]
    stp     x12, x13, [sp, #96]
    stp     x14, x15, [sp, #112]
    stp     x16, x17, [sp, #128]
    stp     x18, x30, [sp, #144]
    mrs     x0, elr_el1         // where it came, and PSTATE there
    mrs     x1, spsr_el1
    stp     x0, x1, [sp, #160]
    bl      handle_irq
    ldp     x0, x1, [sp, #160]
    msr     elr_el1, x0
    msr     spsr_el1, x1
    ldp     x18, x30, [sp, #144]
    ldp     x16, x17, [sp, #128]
    ldp     x14, x15, [sp, #112]
    ldp     x12, x13, [sp, #96]
    ldp     x10, x11, [sp, #80]
    ldp     x8, x9, [sp, #64]
    ldp     x6, x7, [sp, #48]
    ldp     x4, x5, [sp, #32]
    ldp     x2, x3, [sp, #16]
    ldp     x0, x1, [sp]
    add     sp, sp, #176
    eret
    stay                        // FIQ, SError
    stay
    stay                        // from EL0 with A64: synchronous, IRQ, FIQ, SError
    stay
    stay
    stay
    stay                        // from EL0 with A32, of which there is none
    stay
    stay
    stay
