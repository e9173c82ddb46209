/* A script that is put together step by step, for scripts.c, check.c, maps.c and wear.c, how its calls are made one by
 * one, and what can be wrong with the call that is handed it. */
#ifndef TOGETHER_H
#define TOGETHER_H

#include "both.h"

/* Of the script in `script`. */
extern size_t steps, bytes;

void no_steps(void);
void add(const void *sent, size_t length, uint32_t ticks);

/* A code, and zeros after it. */
void add_long(uint8_t code, size_t length, uint32_t ticks);
void add_code(uint8_t code, uint32_t ticks);

/* Whether ticks can go with the last step: there is one, and 16 bits hold them. And they do: where it has some, with a
 * status read after it. */
bool fits_step(uint32_t ticks);
void add_ticks(uint32_t ticks);

/* A call of this kind that is handed all of it: a script, with or without a map or wear, or a check. */
struct call whole_call(enum call_kind kind);

/* Makes the calls of a script one by one on a side, which is prepared for it: each transaction, and its ticks, with wear
 * where the script has it. Gives what the script has to answer. */
uint64_t make_one_by_one(const struct side *side, const struct call *call);

/* A call that is no script and no check, made on the sides `model`, `reference` and `single`. Gives the result. */
uint64_t make_call(const struct call *call);

uint64_t make_transaction(const void *sent, size_t length);
void make_ticks(uint32_t ticks);

/* A fresh part on all three sides; array and rows are as they were. */
void fresh(uint8_t status, uint8_t function);

bool on_large(void);

/* ---- Faults of the call, each of which is a refusal before the first step ---- */

enum { ARRAY = 1, ROWS = 2, LISTS = 4, SUM = 8, OUTPUT = 16, LEVEL = 32, IMAGE = 64, MAP = 128, WEAR = 256 };

/* Puts these faults into the call; `which` says which of their forms. */
void spoil_call(struct call *call, uint32_t faults, uint32_t which);

/* The number: 1, 35, 36, 38, 2, 7, 4, 5 in this order; with no record there is no 1, 35 and 36, and always a 5. */
uint64_t refused_with(uint32_t faults, bool record);

/* A record of a length that no record has. */
size_t no_record_length(uint32_t which);

/* ---- Steps of random traffic, gathered into scripts ---- */

/* Of the script that is being put together: the level of WP#, which is that of its first step, and how many steps are
 * enough for it to be run. */
extern uint64_t level;
extern size_t steps_enough;

/* Takes a transaction as a step. A script that has enough is run before. */
void gather(bool wp_high, const uint8_t *sent, size_t length, void (*run_steps)(void));

#endif
