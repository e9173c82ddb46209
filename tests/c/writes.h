/*
 * Writes as drivers make them, for the test program `laws`: drawn by chance on two parts, and by hand on a blank one.
 *
 * A write is 06h, any number of checks, a program or an erase, and a wait that is long enough. The two parts are the
 * two sides of both.h, but the reference model has no share in them. They are the same when a run begins. What is
 * drawn goes by the registers of part one, which a power-up may change.
 */
#ifndef WRITES_H
#define WRITES_H

#include "../traffic/draws.h"
#include "steps.h"

extern const struct side *const one, *const other;

/* How many runs were made, drawn ones and those by hand. */
extern uint64_t runs;

bool is_large(void);

/* The most ticks in a call. */
uint32_t ticks_most(void);

/* ---- What is written ---- */

/* A page, a row, or what an erase sets: its first place in the array or in the rows, and how many bytes it has. */
struct unit {
    bool of_rows;
    uint32_t at, bytes;
};

uint8_t *bytes_of(const struct side *side, const struct unit *unit);

/* A page that is not protected, or a row that is not locked. A fresh one is filled anew, for this run to write. */
struct unit any_page(void);
struct unit fresh_page(void);
struct unit another_fresh_page(const struct unit *page);

/* A page of a unit. */
struct unit page_in(const struct unit *unit);

/* ---- Programs and erases ---- */

/* A program or an erase, as it is sent. */
struct write {
    struct unit unit; /* what it erases, or the page or row that it programs */
    uint32_t start;   /* of a program: the place in the page of its first byte */
    uint32_t data;    /* where its data begins; an erase has none */
    uint32_t length;
    uint32_t ticks;
    uint8_t bytes[REF_MOST];
};

/* A program whose data is still to be added. What is drawn has many ones, so that a page takes several programs. */
void start_program(struct write *program, const struct unit *page, uint32_t start);
void draw_data(uint8_t *data, uint32_t count);
void add_data(struct write *program, const uint8_t *data, uint32_t count);
uint32_t data_count(const struct write *program);

void draw_program(struct write *program, const struct unit *page);

/* An erase that will be executed, and its unit filled anew. */
void draw_erase(struct write *erase);

/* An erase of this unit, which is free: by any code that reaches it, with any address in it. */
void draw_erase_of(struct write *erase, const struct unit *unit);

/* ---- Calls on one of the parts ---- */

void is_result(const struct call *call, uint64_t expected, uint64_t got);

/* Makes a call that leaves the record as it is. */
uint64_t leaving_record(const struct side *side, const struct call *call);

/* Sends a command that drives nothing, at any level of WP#. It has this number. */
void command_is(const struct side *side, const void *bytes, size_t length, uint64_t number);
void executed(const struct side *side, const void *bytes, size_t length);

/* A transaction of any bytes, of a right length and at any level of WP#. */
struct call any_transaction(void);

/* A call that is refused: the part does not see it. */
void refused(const struct side *side);

/* So many ticks pass, of which so many do work. */
void pass(const struct side *side, uint32_t ticks, uint32_t worked);

/* A call that changes nothing, whether the part is idle, busy or suspended. */
void look_aside(const struct side *side);

/* 05h shows a part that is idle, with WEL 0. */
void is_idle(const struct side *side);

/* ---- A write ---- */

/* 06h, checks, and the program or the erase. */
void begin(const struct side *side, const struct write *write);

/* Waits until so many ticks did work, and longer. */
void wait_for(const struct side *side, uint32_t left);

/* Makes the write. Of the record it changes nothing but WEL and the armed mark. */
void written(const struct side *side, const struct write *write);

/* ---- The parts ---- */

/* Makes two parts of the run's size that are idle and awake, and the same; all else is drawn. */
void make_parts(void);

/* Powers part one up again, with the same identity, and with registers under which the unit is free. */
void power_up_again(const struct unit *unit);

/* 99h on part one, which is armed: its record is then that of a power-up with the registers that it has. */
void finish_reset(void);

/* What part one may hold while it is idle and awake is drawn: the error bits, the live byte of the extended read
 * register, the bank register, WEL and the armed mark. */
void stir(void);

/* Asks both parts for no ticks, and compares what they store: of 512 blocks what this run writes, and a part of the
 * rest. */
void same_stored(void);

/* The same, and their records. */
void same_parts(void);

/* ---- Ways on a blank part, with their ends worked out by hand ---- */

/* Begins a way, on a part of so many blocks. The reference model goes along with it. Addresses are below 65,536, and on
 * 512 blocks in the bank of the bank bit. */
void one_way(const char *name, uint32_t size);

/* The way leaves these bytes. */
void ends_with(uint32_t address, const void *bytes, size_t count);

void program_is(uint32_t address, const void *data, size_t count, uint64_t number);
void programmed(uint32_t address, const void *data, size_t count);

/* An erase of the sector at address 0, with so many of its 16 ticks done, or all. */
void first_sector_begun(uint64_t ticks);
void first_sector_erased(void);

#endif
