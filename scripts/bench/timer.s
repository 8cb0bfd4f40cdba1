// A loop that never ends, of two instructions a turn, and the handler of the timer's interrupt, which sets the timer 100 counts
// ahead. Where each step is handed one count more than the one before, the guest takes an interrupt every 103 steps.
    .text
start:
    mov     x0, #1              // on, and not masked; the bench puts 0 in its place
    adr     x1, vectors
    msr     vbar_el1, x1
    mov     x1, #0xaf000000     // the distributor, on
    mov     w2, #2
    str     w2, [x1]
    mov     x1, #0xaf110000     // the second frame of core 0's redistributor: the timer's id, 27, enabled
    mov     w2, #0x08000000
    str     w2, [x1, #0x100]
    mov     x1, #0xff
    msr     icc_pmr_el1, x1
    mov     x1, #1
    msr     icc_igrpen1_el1, x1
    mov     x2, #100
    msr     cntv_tval_el0, x2
    msr     cntv_ctl_el0, x0
    msr     daifclr, #2
loop:
    add     x3, x3, #1
    b       loop
    .org    0x800
vectors:
    .org    0xa80               // an IRQ from EL1 with SP_EL1
    add     x4, x4, #1          // counts them
    mrs     x1, icc_iar1_el1
    msr     cntv_tval_el0, x2
    msr     icc_eoir1_el1, x1
    eret
