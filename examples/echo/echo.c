// Reads lines from its console, and answers each with the same line in capitals. It counts them in a scratch port, and an
// empty line ends it.
#include "console.h"
#include "scratch.h"

#define CONSOLE ((volatile struct console *)0x9c090000)
#define SCRATCH ((volatile struct scratch *)0x9c090040)
#define LONGEST 80

static uint8_t line[LONGEST];

// Reads up to the end of a line, which isn't kept, and gives the number of bytes. What is too long is cut off.
static unsigned read_line(void)
{
    unsigned count = 0;
    for (;;) {
        uint8_t byte = console_get(CONSOLE);
        if (byte == '\n') {
            return count;
        }
        if (count < LONGEST) {
            line[count++] = byte;
        }
    }
}

static uint8_t capital(uint8_t byte)
{
    return byte >= 'a' && byte <= 'z' ? byte - 'a' + 'A' : byte;
}

uint32_t run(void)
{
    uint32_t lines = 0;
    for (unsigned count = read_line(); count > 0; count = read_line()) {
        for (unsigned at = 0; at < count; at++) {
            console_put(CONSOLE, capital(line[at]));
        }
        console_put(CONSOLE, '\n');
        scratch_write(SCRATCH, 0, ++lines);
    }
    return scratch_read(SCRATCH, 0);
}
