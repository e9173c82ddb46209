/* Steps of the directed calls: calls on a fitting part whose results are worked out by hand, and what its array has to
 * hold meanwhile. At the first result that is not as worked out the program tells it and ends. */
#ifndef STEPS_H
#define STEPS_H

#include "both.h"

/* Bits of the status register, of the function register, and of the extended read register (with WIP). */
#define WIP 0x01
#define WEL 0x02
#define TBS 0x02
#define PSUS 0x04
#define ESUS 0x08
#define E_ERR 0x08
#define P_ERR 0x04
#define PROT_E 0x02

/* The call has this number, and this place or count above it. */
void result_is(const struct call *call, uint64_t number, uint64_t above);
void number_is(const struct call *call, uint64_t number);

/* Power-up with the identity 11 22 33 44h, and with these registers. */
void powered(uint32_t blocks);
void powered_with(uint32_t blocks, uint8_t status, uint8_t function, uint8_t extended);

/* Sends these bytes, with WP# high but for sent_at. `place` is the first driven one. */
void sent_at(uint64_t wp_high, const void *bytes, size_t length, uint64_t number, uint64_t place);
void sent(const void *bytes, size_t length, uint64_t number, uint64_t place);

/* A byte of the output of the last transaction. */
void output_is(size_t place, uint8_t expected);

/* A command that drives nothing. */
void command(const void *bytes, size_t length, uint64_t number);
void command_with(uint8_t code, uint8_t byte, uint64_t number);

void ticked(uint64_t ticks, uint64_t number, uint64_t worked);

/* 81h shows this byte, from place 1 on. */
void shows(uint8_t expected);
void status_is(uint8_t expected);
void registers_are(uint8_t status, uint8_t function, uint8_t extended);
void reset(void);

/* ---- What the array has to hold ---- */

size_t stored_length(void);

/* A run begins: nothing is known of the array yet. */
void forget_stored(void);

/* Fills the array with bytes that are never FFh, so that each page that is erased shows, and each that is not. */
void fill_stored(void);

/* The place to read the byte at an address, modulo the length, and to change `length` bytes from it on. */
uint8_t stored_byte(size_t address);
uint8_t *change_stored(size_t address, size_t length);

/* The array holds what it has to. Of 512 blocks those that were changed are looked at, with the blocks beside them;
 * whole_array_is_as_stored looks at all. */
void array_is_as_stored(void);
void whole_array_is_as_stored(void);

#endif
