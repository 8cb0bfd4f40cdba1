// The virtual timer of the core that calls. Its time is the count of the schedule's line.
#ifndef TIMER_H
#define TIMER_H

#include <stdint.h>

#define TIMER_INTERRUPT 27

// CNTV_CTL_EL0
#define TIMER_ENABLE 1
#define TIMER_IMASK 2
#define TIMER_ISTATUS 4 // read only: the time has come

static inline uint64_t timer_count(void)
{
    uint64_t count;
    __asm__ volatile("mrs %0, cntvct_el0" : "=r"(count));
    return count;
}

static inline void timer_control(uint64_t control)
{
    __asm__ volatile("msr cntv_ctl_el0, %0" : : "r"(control));
}

static inline void timer_stop(void)
{
    timer_control(0);
}

// Raises the timer's line once, at this count or as soon as may be. The timer is off in between, so that its level falls: the
// line is raised where the level rises.
static inline void timer_set(uint64_t count)
{
    timer_stop();
    __asm__ volatile("msr cntv_cval_el0, %0" : : "r"(count));
    timer_control(TIMER_ENABLE);
}

#endif
