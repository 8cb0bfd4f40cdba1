// The calls of the hypervisor. HVC and SMC do the same; here PSCI is called by SMC and the doorbell by HVC.
#ifndef CALLS_H
#define CALLS_H

#include <stdint.h>

#define RING_DOORBELL 0xc6000001
#define PSCI_VERSION 0x84000000
#define PSCI_CPU_OFF 0x84000002
#define PSCI_CPU_ON 0xc4000003
#define PSCI_AFFINITY_INFO 0xc4000004
#define PSCI_SYSTEM_OFF 0x84000008

#define PSCI_SUCCESS 0
#define PSCI_NOT_SUPPORTED (-1)
#define PSCI_INVALID_PARAMETERS (-2)
#define PSCI_ALREADY_ON (-4)

// what psci_affinity_info tells of a core
#define PSCI_AFFINITY_ON 0
#define PSCI_AFFINITY_OFF 1

static inline int64_t call_by_hvc(uint32_t id, uint64_t first, uint64_t second, uint64_t third)
{
    register uint64_t x0 __asm__("x0") = id;
    register uint64_t x1 __asm__("x1") = first;
    register uint64_t x2 __asm__("x2") = second;
    register uint64_t x3 __asm__("x3") = third;
    __asm__ volatile("hvc #0" : "+r"(x0) : "r"(x1), "r"(x2), "r"(x3) : "memory");
    return (int64_t)x0;
}

static inline int64_t call_by_smc(uint32_t id, uint64_t first, uint64_t second, uint64_t third)
{
    register uint64_t x0 __asm__("x0") = id;
    register uint64_t x1 __asm__("x1") = first;
    register uint64_t x2 __asm__("x2") = second;
    register uint64_t x3 __asm__("x3") = third;
    __asm__ volatile("smc #0" : "+r"(x0) : "r"(x1), "r"(x2), "r"(x3) : "memory");
    return (int64_t)x0;
}

// Rings an event of the shared memory on which the VM has the window at this place of its `ipcs`.
static inline int64_t ring_doorbell(uint64_t place, uint64_t event)
{
    return call_by_hvc(RING_DOORBELL, place, event, 0);
}

// The major version in bits 31 to 16, the minor one below.
static inline int64_t psci_version(void)
{
    return call_by_smc(PSCI_VERSION, 0, 0, 0);
}

// Turns on a core of the VM that is off. It begins at the entry, with the argument in X0 and no stack.
static inline int64_t psci_cpu_on(uint64_t core, uint64_t entry, uint64_t argument)
{
    return call_by_smc(PSCI_CPU_ON, core, entry, argument);
}

// Turns off the core that calls, which gets no answer.
static inline int64_t psci_cpu_off(void)
{
    return call_by_smc(PSCI_CPU_OFF, 0, 0, 0);
}

static inline int64_t psci_affinity_info(uint64_t core, uint64_t level)
{
    return call_by_smc(PSCI_AFFINITY_INFO, core, level, 0);
}

// Turns off all cores of the VM; there is no answer.
static inline int64_t psci_system_off(void)
{
    return call_by_smc(PSCI_SYSTEM_OFF, 0, 0, 0);
}

#endif
