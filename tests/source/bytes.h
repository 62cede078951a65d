/* Numbers of 32 bits as bytes, low byte first, as 01's records have them. */
#ifndef BYTES_H
#define BYTES_H

#include <stdint.h>

static inline uint32_t get32(const unsigned char *b)
{
    return b[0] | (uint32_t)b[1] << 8 | (uint32_t)b[2] << 16 | (uint32_t)b[3] << 24;
}

static inline void put32(unsigned char *b, uint32_t n)
{
    for (int i = 0; i < 4; i++)
        b[i] = (unsigned char)(n >> 8 * i);
}

#endif
