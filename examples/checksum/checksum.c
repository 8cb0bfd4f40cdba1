// The CRC-32 of a text, as in gzip and zlib, with a table of 16 entries for half a byte each.
#include <stdint.h>

#define AS_WRITTEN __attribute__((noipa)) // the call stays a call, and nothing is computed by the compiler
#define POLYNOMIAL 0xedb88320u // bits in reverse order

static const char text[] = "The quick brown fox jumps over the lazy dog";

static uint32_t table[16];
uint32_t checksum; // the answer, which stays in memory

AS_WRITTEN static void make_table(void)
{
    for (uint32_t index = 0; index < 16; index++) {
        uint32_t entry = index;
        for (int bit = 0; bit < 4; bit++) {
            entry = entry & 1 ? entry >> 1 ^ POLYNOMIAL : entry >> 1;
        }
        table[index] = entry;
    }
}

AS_WRITTEN static uint32_t crc32_of(const char *at)
{
    uint32_t crc = 0xffffffff;
    for (; *at != 0; at++) {
        crc ^= (uint8_t)*at;
        crc = crc >> 4 ^ table[crc & 15];
        crc = crc >> 4 ^ table[crc & 15];
    }
    return ~crc;
}

uint32_t run(void)
{
    make_table();
    checksum = crc32_of(text);
    return checksum;
}
