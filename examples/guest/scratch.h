// A scratch port, ports 8 to 11: sixteen words that keep what is written. A write of the last one that isn't 0 raises the
// line.
#ifndef SCRATCH_H
#define SCRATCH_H

#include <stdint.h>

struct scratch {
    uint32_t words[16];
};

static inline uint32_t scratch_read(volatile struct scratch *scratch, unsigned place)
{
    return scratch->words[place];
}

static inline void scratch_write(volatile struct scratch *scratch, unsigned place, uint32_t value)
{
    scratch->words[place] = value;
}

#endif
