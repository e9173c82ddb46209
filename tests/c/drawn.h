/* Writes that are drawn by chance: programs and erases, of rows and registers too, whose ticks come in pieces, with
 * suspends, programs within, resumes and resets between these. They are made call by call or as the steps of a script.
 * maps.c and wear.c draw them. */
#ifndef DRAWN_H
#define DRAWN_H

#include "together.h"

#define BANK 0x1000000u /* bytes that three address bytes reach, of a part of 512 blocks */

uint32_t page_count(void);

/* What is done with a write. */
struct writers {
    void (*send)(const void *sent, size_t length); /* a transaction */
    void (*wait)(uint32_t ticks);
    void (*run)(void); /* the script that was put together */
    void (*one)(void), (*other)(void); /* what else may come between two pieces, where no script is put together */
};

/* Most addresses are in a few pages, so that writes meet. */
uint32_t any_address(void);

/* A write, and its ticks in pieces; in a third of the cases as a script. */
void play_write(const struct writers *writers);

#endif
