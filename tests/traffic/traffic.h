/* Made-up traffic to a part: what drivers send and how long they wait, and what they do wrong.
 *
 * It is a row of chapters. A chapter has a mood, which weighs the scenes that it is made of, and a few pages
 * that most of its addresses fall in, so that programs, erases and reads meet. A scene is what a driver does,
 * or does wrong. The traffic knows nothing of the part's state: a scene that ends badly leaves the part busy,
 * asleep, suspended or protected for the next. The same seed, limits and draws give the same traffic.
 *
 * The traffic for 512 blocks has bank changes and both address lengths besides. Its driver remembers what it last
 * wrote to the bank address register, as drivers do, whether or not the part took it; so at times it sends an
 * address with one byte too many or too few, or to the other bank. The codes that only 512 blocks have are sent
 * to the other sizes too, now and then. */
#ifndef TRAFFIC_H
#define TRAFFIC_H

#include <stdbool.h>
#include <stddef.h>
#include <stdint.h>

#include "draws.h"

#define TRAFFIC_MOST 4096u /* bytes in a message */

struct limits {
    uint32_t message_most; /* bytes in a message: up to TRAFFIC_MOST */
    uint32_t long_one_in;  /* how rare a message of up to so many bytes is among programs and reads */
    uint32_t blocks;       /* of the part, or of the largest part that the traffic is for */
};

/* ---- What the user of the traffic defines: its steps ---- */

void traffic_send(bool wp_high, const uint8_t *bytes, size_t length);
void traffic_wait(uint32_t ticks);

/* Something that no driver does. It falls between steps, and is a scene too. */
void traffic_strange(void);

/* ---- The traffic ---- */

/* Begins the draws too: the traffic is made of them. */
void begin_traffic(uint64_t seed, const struct limits *limits);
void begin_chapter(void);
void play_scene(void);

/* The most ticks in a wait: 131,072 on a part of 512 blocks, 4,096 on the others. */
uint32_t traffic_ticks_most(void);

/* Function writes may set these lock bits from now on; at the beginning none. Locks are for ever. */
void allow_locks(uint8_t bits);

/* ---- Pieces for scenes of the user's own ---- */

void send_code(uint8_t code);
void unprotect(void);

#endif
