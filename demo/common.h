/* What the demonstrations and the damage test share: faults, numbers, the head of a frame. */
#ifndef COMMON_H
#define COMMON_H

#include "numbers.h"

#include <adb.h>

#include <inttypes.h>
#include <stdio.h>
#include <stdlib.h>
#include <string.h>

static const char *mode = "start";

static inline void die(const char *what, uint64_t a, uint64_t b)
{
    printf("FAULT (%s): %s (%" PRIu64 ", %" PRIu64 ")\n", mode, what, a, b);
    exit(1);
}

/* ---- numbers */

static inline uint64_t between(uint64_t a, uint64_t b) { return a + below(b - a + 1); }
static inline int chance(unsigned percent) { return below(100) < percent; }
static inline uint64_t least(uint64_t a, uint64_t b) { return a < b ? a : b; }

static inline uint32_t sum(const uint8_t *p, size_t n)
{
    uint32_t s = 0;
    for (size_t i = 0; i < n; i++) s += p[i];
    return s;
}

/* ---- frames */

static inline void put_head(uint8_t *f, const char *command, uint32_t arg0, uint32_t arg1, size_t n, uint32_t check)
{
    memcpy(f, command, 4);
    put32(f + 4, arg0);
    put32(f + 8, arg1);
    put32(f + 12, (uint32_t)n);
    put32(f + 16, check);
    put32(f + 20, ~adb_le32(f));
}

#endif
