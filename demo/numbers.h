/* Numbers by chance, the same for the same seed, and words in little-endian order. For the demonstrations and the tests. */
#ifndef NUMBERS_H
#define NUMBERS_H

#include <stdint.h>

static uint64_t rng;

static inline uint64_t mix(uint64_t z)
{
    z = (z ^ (z >> 30)) * 0xbf58476d1ce4e5b9u;
    z = (z ^ (z >> 27)) * 0x94d049bb133111ebu;
    return z ^ (z >> 31);
}

static inline uint64_t next(void) { return mix(rng += 0x9e3779b97f4a7c15u); }
static inline uint64_t below(uint64_t n) { return next() % n; }

static inline void put32(uint8_t *p, uint32_t v)
{
    for (int i = 0; i < 4; i++) p[i] = (uint8_t)(v >> 8 * i);
}

#endif
