/*
 * Numbers from a seed (splitmix64): the same seed gives the same tests on every machine.
 */
#ifndef SEEDED_H
#define SEEDED_H

#include <stdint.h>

extern uint64_t random_state;   /* of the file with main; the seed at first */

static inline uint64_t next(void)
{
    uint64_t z = random_state += UINT64_C(0x9E3779B97F4A7C15);
    z = (z ^ z >> 30) * UINT64_C(0xBF58476D1CE4E5B9);
    z = (z ^ z >> 27) * UINT64_C(0x94D049BB133111EB);
    return z ^ z >> 31;
}

static inline uint32_t below(uint64_t n)
{
    return (uint32_t)(next() % n);
}

/* True once in n times. */
static inline int once_in(uint64_t n)
{
    return below(n) == 0;
}

#endif
