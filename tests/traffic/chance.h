/* Numbers that look random, the same for the same seed: splitmix64. */
#ifndef CHANCE_H
#define CHANCE_H

#include <stdbool.h>
#include <stddef.h>
#include <stdint.h>

#define COUNT(list) (sizeof(list) / sizeof((list)[0]))

struct chance {
    uint64_t state;
};

static inline uint64_t next_number(struct chance *chance)
{
    uint64_t z = chance->state += UINT64_C(0x9E3779B97F4A7C15);

    z = (z ^ (z >> 30)) * UINT64_C(0xBF58476D1CE4E5B9);
    z = (z ^ (z >> 27)) * UINT64_C(0x94D049BB133111EB);
    return z ^ (z >> 31);
}

static inline uint32_t number_below(struct chance *chance, uint32_t limit)
{
    return (uint32_t)((next_number(chance) >> 32) % limit);
}

/* The seed of an argument: a decimal number of up to 18 digits. */
static inline bool seed_of(const char *digits, uint64_t *seed)
{
    size_t count = 0;

    *seed = 0;
    for (; digits[count] >= '0' && digits[count] <= '9' && count < 18; count++)
        *seed = *seed * 10 + (uint64_t)(digits[count] - '0');
    return count > 0 && digits[count] == 0;
}

#endif
