// Where a core begins that a guest in C turns on by CPU_ON: it gives the core a stack and calls `run_secondary` with the
// argument of CPU_ON. The stack of core J goes down from J * 4 KiB below the end of memory, `memory_end` of the link script.
    .text
    .global start_secondary
start_secondary:
    movz    x1, #:abs_g1:memory_end
    movk    x1, #:abs_g0_nc:memory_end
    mrs     x2, mpidr_el1       // bits 7 to 0: the core's number in its VM
    and     x2, x2, #0xff
    sub     x1, x1, x2, lsl #12
    mov     sp, x1
    bl      run_secondary
    b       .
