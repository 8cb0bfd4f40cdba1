// Interrupts of a guest in C, by the vector table of vectors.s.
#ifndef VECTORS_H
#define VECTORS_H

extern const char vectors[];

// What the guest does at an interrupt. It is called with interrupts masked, and may unmask them once it has acknowledged.
void handle_irq(void);

static inline void vectors_install(void)
{
    __asm__ volatile("msr vbar_el1, %0" : : "r"(vectors) : "memory");
}

static inline void interrupts_unmask(void)
{
    __asm__ volatile("msr daifclr, #2" : : : "memory");
}

static inline void interrupts_mask(void)
{
    __asm__ volatile("msr daifset, #2" : : : "memory");
}

static inline void wait_for_interrupt(void)
{
    __asm__ volatile("wfi" : : : "memory");
}

#endif
