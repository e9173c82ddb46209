/* Draws by chance, all from one row of numbers: the same seed gives the same draws. */
#ifndef DRAWS_H
#define DRAWS_H

#include <stdbool.h>
#include <stddef.h>
#include <stdint.h>

#include "chance.h"

void begin_draws(uint64_t seed);

uint32_t below(uint32_t limit);
uint32_t between(uint32_t least, uint32_t most);
bool one_in(uint32_t n);
uint8_t any_byte(void);
uint8_t pick_byte(const uint8_t *list, size_t count);

#endif
