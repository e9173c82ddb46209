/* Draws by chance: see draws.h. */
#include "draws.h"

static struct chance chance;

void begin_draws(uint64_t seed)
{
    chance.state = seed;
}

uint32_t below(uint32_t limit)
{
    return number_below(&chance, limit);
}

uint32_t between(uint32_t least, uint32_t most)
{
    return least + below(most - least + 1);
}

bool one_in(uint32_t n)
{
    return below(n) == 0;
}

uint8_t any_byte(void)
{
    return (uint8_t)below(256);
}

uint8_t pick_byte(const uint8_t *list, size_t count)
{
    return list[below((uint32_t)count)];
}
