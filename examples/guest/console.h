// A console, ports 0 to 7: bytes out, and bytes in.
#ifndef CONSOLE_H
#define CONSOLE_H

#include <stdbool.h>
#include <stdint.h>

struct console {
    uint32_t data;    // a write puts its low byte out, a read takes the oldest byte that waits
    uint32_t status;  // bit 0: a byte waits
    uint32_t control; // bit 0: an input byte raises the line
};

static inline bool console_has_byte(volatile struct console *console)
{
    return console->status & 1;
}

// Takes a byte; waits until there is one.
static inline uint8_t console_get(volatile struct console *console)
{
    while (!console_has_byte(console)) {
    }
    return (uint8_t)console->data;
}

static inline void console_put(volatile struct console *console, uint8_t byte)
{
    console->data = byte;
}

static inline void console_put_text(volatile struct console *console, const char *text)
{
    for (; *text != 0; text++) {
        console_put(console, (uint8_t)*text);
    }
}

// Puts a number out in decimal.
static inline void console_put_number(volatile struct console *console, uint32_t number)
{
    uint8_t digits[10];
    unsigned count = 0;
    do {
        digits[count++] = '0' + number % 10;
        number /= 10;
    } while (number != 0);
    while (count > 0) {
        console_put(console, digits[--count]);
    }
}

#endif
