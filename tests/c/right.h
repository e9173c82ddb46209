/* The right kind of flashing script, for check.c: what it is, worked out from the specification alone, and one that is
 * drawn by chance.
 *
 * A flasher knows what the part holds and what it should hold. Its script is right if it "erases exactly the sectors
 * where some bit must go from 0 to 1, then programs every byte that still differs, and no other, with its wanted value,
 * within page borders, sets write enable each time, allows the ticks of 01 and does nothing more". */
#ifndef RIGHT_H
#define RIGHT_H

#include "together.h"

#define SECTOR 4096u

/* ---- The definition ---- */

/* Is the script in `script` right for this part, with this array and this image? Part, array and image are as they are
 * before it; array and image have the part's size. The part is not asked whether it is idle, awake and unprotected:
 * may_begin does that. */
bool right_script(const struct part *at, const uint8_t *array, const uint8_t *image);

/* The part is idle and awake, and none of its blocks is protected. */
bool may_begin(const struct part *at);

/* A write as the part takes it: a sector erase, or a program of the array. */
struct write_step {
    bool erases;
    uint32_t address; /* in the array */
    const uint8_t *data; /* of a program */
    size_t count;
};

/* Takes step k, whose bytes begin at `from`, as such a write. False if it is something else, or has a wrong length. */
bool read_write(const struct part *at, size_t k, size_t from, struct write_step *write);

/* ---- One by chance ---- */

/* Puts a right script together, in any order, with any codes and any cuts that are right for this part. */
void draw_right_script(const struct part *at, const uint8_t *array, const uint8_t *image);

/* A sector erase and a program by any code that reaches the place on this part, with their 06h and these ticks. */
void add_erase(const struct part *at, uint32_t address, uint32_t ticks);
void add_program(const struct part *at, uint32_t address, const uint8_t *data, size_t count, uint32_t ticks);

#endif
