// What both VMs know: where their window lies, and what is in it.
#ifndef CONTROL_H
#define CONTROL_H

#include "calls.h"
#include "mailbox.h"

// What the controller did at a tick; it travels as a message.
struct sample {
    uint32_t tick;  // counted from 1
    uint32_t speed; // pulses since the tick before
    uint32_t power;
    uint32_t unused;
};

_Static_assert(sizeof(struct sample) == MESSAGE_BYTES, "a sample is a message");

#define WINDOW ((volatile struct mailbox *)0x180000)

// the window's place in `ipcs`, the same in both VMs, and the one event of its shared memory
#define WINDOW_PLACE 0
#define EVENT 0

#endif
