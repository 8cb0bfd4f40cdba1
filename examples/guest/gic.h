// The interrupt controller, an Arm GICv3: the frames of the VM's distributor and redistributors, and the interface of the
// core that calls. Names of registers are those of the GICv3 specification.
#ifndef GIC_H
#define GIC_H

#include <stdbool.h>
#include <stdint.h>

// the platform's `gicd` and `gicr`; a guest of another platform defines both before this
#ifndef GICD
#define GICD 0xaf000000
#define GICR 0xaf100000
#endif

// the distributor; n is id / 32 from 1 on, and core 0 takes these ids
#define GICD_CTLR (GICD + 0x0)
#define GICD_TYPER (GICD + 0x4)
#define GICD_ISENABLER(n) (GICD + 0x100 + 4 * (n))
#define GICD_ICENABLER(n) (GICD + 0x180 + 4 * (n))
#define GICD_ISPENDR(n) (GICD + 0x200 + 4 * (n))
#define GICD_ICPENDR(n) (GICD + 0x280 + 4 * (n))
#define GICD_IPRIORITYR(id) (GICD + 0x400 + (id))

// the redistributor of a core of the VM, for its ids 0 to 31
#define GICR_TYPER(core) (GICR + 0x20000 * (core) + 0x8)
#define GICR_ISENABLER0(core) (GICR + 0x20000 * (core) + 0x10100)
#define GICR_ICENABLER0(core) (GICR + 0x20000 * (core) + 0x10180)
#define GICR_ISPENDR0(core) (GICR + 0x20000 * (core) + 0x10200)
#define GICR_ICPENDR0(core) (GICR + 0x20000 * (core) + 0x10280)
#define GICR_IPRIORITYR(core, id) (GICR + 0x20000 * (core) + 0x10400 + (id))

#define GICD_CTLR_ENABLE_GROUP1 2

#define NO_INTERRUPT 1023 // what interrupt_acknowledge gives where none is signalled

// Loads and stores in the frames are of one register and without write-back: the hypervisor answers no others. So the
// compiler doesn't choose them.
static inline uint32_t gic_read(uint64_t address)
{
    uint32_t value;
    __asm__ volatile("ldr %w0, [%1]" : "=r"(value) : "r"(address) : "memory");
    return value;
}

static inline void gic_write(uint64_t address, uint32_t value)
{
    __asm__ volatile("str %w0, [%1]" : : "r"(value), "r"(address) : "memory");
}

static inline void gic_write_byte(uint64_t address, uint8_t value)
{
    __asm__ volatile("strb %w0, [%1]" : : "r"(value), "r"(address) : "memory");
}

static inline unsigned this_core(void)
{
    uint64_t mpidr;
    __asm__("mrs %0, mpidr_el1" : "=r"(mpidr));
    return mpidr & 0xff;
}

// Turns the VM's distributor on, and lets this core take interrupts whose priority number is below the mask: with 0xff, of
// which bits 7 to 3 count, all below 0xf8.
static inline void gic_open(uint8_t mask)
{
    gic_write(GICD_CTLR, GICD_CTLR_ENABLE_GROUP1);
    __asm__ volatile("msr icc_pmr_el1, %0" : : "r"((uint64_t)mask));
    __asm__ volatile("msr icc_igrpen1_el1, %0" : : "r"((uint64_t)1));
}

// Enables an id with a priority, of which bits 7 to 3 count; the lower number is the more urgent. An id below 32 is this core's
// own.
static inline void interrupt_enable(unsigned id, uint8_t priority)
{
    if (id < 32) {
        gic_write_byte(GICR_IPRIORITYR(this_core(), id), priority);
        gic_write(GICR_ISENABLER0(this_core()), 1u << id);
    } else {
        gic_write_byte(GICD_IPRIORITYR(id), priority);
        gic_write(GICD_ISENABLER(id / 32), 1u << id % 32);
    }
}

static inline void interrupt_disable(unsigned id)
{
    gic_write(id < 32 ? GICR_ICENABLER0(this_core()) : GICD_ICENABLER(id / 32), 1u << id % 32);
}

static inline bool interrupt_is_pending(unsigned id)
{
    return gic_read(id < 32 ? GICR_ISPENDR0(this_core()) : GICD_ISPENDR(id / 32)) >> id % 32 & 1;
}

// Makes it pending, as its line does; or takes that back.
static inline void interrupt_set_pending(unsigned id)
{
    gic_write(id < 32 ? GICR_ISPENDR0(this_core()) : GICD_ISPENDR(id / 32), 1u << id % 32);
}

static inline void interrupt_clear_pending(unsigned id)
{
    gic_write(id < 32 ? GICR_ICPENDR0(this_core()) : GICD_ICPENDR(id / 32), 1u << id % 32);
}

// Sends an id below 16 to the cores of the VM whose bits are set, the core that calls too.
static inline void interrupt_send(unsigned id, uint16_t cores)
{
    __asm__ volatile("msr icc_sgi1r_el1, %0" : : "r"((uint64_t)id << 24 | cores) : "memory");
}

static inline void interrupt_send_to_others(unsigned id)
{
    __asm__ volatile("msr icc_sgi1r_el1, %0" : : "r"((uint64_t)1 << 40 | (uint64_t)id << 24) : "memory");
}

// Takes the signalled interrupt. Until its end only those of a lower priority number are signalled.
static inline uint32_t interrupt_acknowledge(void)
{
    uint64_t id;
    __asm__ volatile("mrs %0, icc_iar1_el1" : "=r"(id) : : "memory");
    return id;
}

// Ends what was acknowledged; of NO_INTERRUPT it does nothing.
static inline void interrupt_end(uint32_t id)
{
    __asm__ volatile("msr icc_eoir1_el1, %0" : : "r"((uint64_t)id) : "memory");
}

#endif
