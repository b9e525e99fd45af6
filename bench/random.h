/* Numbers from a fixed seed, the same in each run. */
#ifndef RANDOM_H
#define RANDOM_H

#include <stddef.h>
#include <stdint.h>

static inline uint64_t random_below(uint64_t bound)
{
    static uint64_t state = 0x8B9B; /* splitmix64 */
    uint64_t number = state += 0x9E3779B97F4A7C15;
    number = (number ^ number >> 30) * 0xBF58476D1CE4E5B9;
    number = (number ^ number >> 27) * 0x94D049BB133111EB;
    return (number ^ number >> 31) % bound;
}

static inline void random_bytes(uint8_t *byte, size_t count)
{
    for (size_t i = 0; i < count; i++)
        byte[i] = (uint8_t)random_below(256);
}

#endif
