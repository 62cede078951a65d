/* Random numbers that a seed decides (splitmix64). */
#ifndef RANDOM_H
#define RANDOM_H

#include <stdint.h>

static uint64_t random_state;

/* From 0 to n - 1. */
static inline uint32_t below(uint32_t n)
{
    uint64_t z = random_state += 0x9e3779b97f4a7c15u;
    z = (z ^ z >> 30) * 0xbf58476d1ce4e5b9u;
    z = (z ^ z >> 27) * 0x94d049bb133111ebu;
    return (uint32_t)((z ^ z >> 31) >> 32) % n;
}

static inline uint32_t between(uint32_t low, uint32_t high)
{
    return low + below(high - low + 1);
}

#endif
