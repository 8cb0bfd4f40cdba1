// What every guest in C begins with: it gives the program a stack, calls it, and stays at the end with its answer in X0.
// `memory_end` is the end of the VM's memory, from the link script.
    .section .text.start, "ax"
    .global start
start:
    movz    x0, #:abs_g1:memory_end
    movk    x0, #:abs_g0_nc:memory_end
    mov     sp, x0
    bl      run
    b       .
