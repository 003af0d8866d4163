/* What the plain C packets and the plain C tables share: fields of a header, and the rules of settings,
 * byte enables and the boundary that no memory request crosses.
 */
#ifndef PLAIN_RULES_H
#define PLAIN_RULES_H

#include <stdbool.h>
#include <stdint.h>

#define PLAIN_PAGE 4096u /* no memory request crosses a multiple of it */

/* Bits high:low of a byte, as document 01 writes them. */
static inline uint32_t bits(uint8_t byte, unsigned high, unsigned low)
{
    return ((uint32_t)byte >> low) & ((2u << (high - low)) - 1u);
}

static inline void store32(uint8_t *to, uint32_t number)
{
    to[0] = (uint8_t)(number >> 24);
    to[1] = (uint8_t)(number >> 16);
    to[2] = (uint8_t)(number >> 8);
    to[3] = (uint8_t)number;
}

static inline bool size_allowed(uint32_t size)
{
    return size >= 128 && size <= 4096 && (size & (size - 1)) == 0;
}

static inline bool settings_allowed(uint32_t mps, uint32_t mrrs, uint32_t rcb)
{
    return size_allowed(mps) && size_allowed(mrrs) && (rcb == 64 || rcb == 128);
}

/* Byte enables; holes are permitted at lengths 1 and 2 only. */
static inline bool enables_allowed(uint32_t length, uint32_t first, uint32_t last)
{
    if (length == 1)
        return last == 0;
    if (length == 2)
        return first != 0 && last != 0;
    return (first == 0xf || first == 0xe || first == 0xc || first == 0x8) &&
           (last == 0xf || last == 0x7 || last == 0x3 || last == 0x1);
}

static inline bool crosses_page(uint32_t low_address, uint32_t length)
{
    return low_address % PLAIN_PAGE + 4 * length > PLAIN_PAGE;
}

#endif
