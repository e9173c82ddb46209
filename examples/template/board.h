/*
 * The board: what the driver knows of the part. board.c makes it of the model; on silicon another file does,
 * with the same functions.
 */
#ifndef BOARD_H
#define BOARD_H

#include <stddef.h>
#include <stdint.h>

#ifdef __cplusplus
extern "C" {
#endif

/* Selects the part, clocks out `length` bytes and, in the same clocks, as many in, and deselects it. */
void board_transfer(const uint8_t *out, uint8_t *in, size_t length);

/* Lets a little time pass. */
void board_delay(void);

/* For tests on the model: puts a part on the board, with each byte of its array `fill`, and powers it up. */
void board_new_part(uint8_t fill);

/* For tests on the model: how many transactions the part has ignored since then, and the number of the last one, which
 * says why; 0 if there was none. A part on silicon ignores them without a word. */
unsigned board_ignored(void);
unsigned board_ignored_why(void);

#ifdef __cplusplus
}
#endif

#endif
