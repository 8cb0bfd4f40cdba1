// A ticker, ports 12 to 15: it counts its input bytes, and raises its line at each `period` of them.
#ifndef TICKER_H
#define TICKER_H

#include <stdint.h>

struct ticker {
    uint32_t count;  // the number of input bytes modulo 2^32; writes are ignored
    uint32_t period; // 0 for no line at all
};

static inline uint32_t ticker_count(volatile struct ticker *ticker)
{
    return ticker->count;
}

static inline void ticker_set_period(volatile struct ticker *ticker, uint32_t period)
{
    ticker->period = period;
}

// Waits until so many bytes more have come in.
static inline void ticker_wait(volatile struct ticker *ticker, uint32_t ticks)
{
    uint32_t start = ticker_count(ticker);
    while (ticker_count(ticker) - start < ticks) {
    }
}

#endif
