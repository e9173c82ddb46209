/* Yawlspar's reference model of the part on the bench, written from the specification alone: 01-scope, the
 * requests of 02-change-requests that have landed, and for the part of 512 blocks source document 004. It shares
 * no table, helper or header with the main model. */
#ifndef REFERENCE_H
#define REFERENCE_H

#include <stdbool.h>
#include <stddef.h>
#include <stdint.h>

#define REF_BLOCK 65536u /* bytes in a block */
#define REF_ROWS 1024u   /* bytes in the four rows */
#define REF_PAGE 256u    /* bytes in a page, and in a row */
#define REF_SECTOR 4096u /* bytes in a sector */
#define REF_MOST 4096u   /* most bytes in a transaction */
#define REF_LARGE 512u   /* blocks of the 32 Mbyte part, request 10 of 02; the other sizes are the old ones */

/* 01: "a part is idle, busy with one operation, or suspended from one." Request 3 of 02 adds to it: a part that is
 * suspended from an erase may be busy with a program within, the inner program; the record then holds two. */
enum phase {
    IDLE = 0,
    BUSY = 1,      /* op runs, and nothing is suspended */
    SUSPENDED = 2, /* op is suspended, and nothing runs */
    NESTED = 3     /* op is the inner program and runs; outer is the suspended erase */
};

enum kind {
    NONE = 0,       /* idle */
    PP = 1,         /* 02h, 12h: base is the page's first address */
    SER = 2,        /* D7h, 20h, 21h: base is the unit's first address, here and in the next three */
    BER32 = 3,      /* 52h, 5Ch */
    BER64 = 4,      /* D8h, DCh */
    CER = 5,        /* C7h, 60h: base is 0 */
    ROW_ERASE = 6,  /* 64h: base is the row's first place in the rows: 0, 256, 512 or 768 */
    ROW_PROGRAM = 7, /* 62h: base as for ROW_ERASE */
    WRITE_STATUS = 8,  /* 01h: held is its byte with bits 1..0 zero */
    WRITE_FUNCTION = 9, /* 42h: held is its byte with bits 3..0 zero */
    WRITE_EXTENDED = 10 /* 85h: held is its byte with bits 4..0 zero */
};

/* Fields that a kind has no use for are written as 0 and never looked at. */
struct operation {
    uint8_t kind;   /* enum kind */
    uint32_t base;
    uint32_t start; /* programs: the place in the page of the first kept byte */
    uint32_t count; /* programs: how many bytes are kept, 1 to 256 */
    uint32_t done;  /* ticks done */
    uint8_t held;   /* register writes: the byte */
};

struct part {
    uint32_t size; /* in blocks: 1, 4, 8, 16 or 512 */
    uint8_t m, t, c, d; /* maker, type, capacity, device */
    uint8_t status;   /* 7 SRWD, 6 QE, 5..2 BP3..BP0, 1 WEL, 0 WIP */
    uint8_t function; /* 7..4 IRL3..IRL0, 3 ESUS, 2 PSUS, 1 TBS on 512 blocks and else zero, 0 zero */
    uint8_t extended; /* the extended read register's stored byte: 7..5 ODS2..ODS0, 4..0 zero */
    uint8_t live;     /* its volatile byte: 7..5 ODS2..ODS0; 4..0 are kept zero */
    bool e_err, p_err, prot_e; /* its error bits */
    uint8_t bank; /* the bank address register: 7 EXTADD, 6..1 zero, 0 the bank bit; zero on the old sizes */
    bool wel;
    bool armed;
    bool asleep;
    uint8_t phase; /* enum phase */
    struct operation op;
    struct operation outer; /* beneath an inner program: the suspended erase. Written as 0 in the other phases */
    uint8_t data[REF_PAGE]; /* kept bytes of the program in op, in order of arrival, zeros after them */
};

/* Is it a size of the specification, in blocks? */
bool ref_size_ok(uint64_t size);

/* The most ticks in a call on a part of this size. */
uint32_t ref_ticks_most(uint32_t size);

/* Each call answers a number of the specification's table. */

/* TBS, the top or bottom bit of a part of 512 blocks, is bit 1 of the function byte. */
int ref_power_up(struct part *part, uint32_t size, uint8_t m, uint8_t t, uint8_t c, uint8_t d,
                 uint8_t status, uint8_t function, uint8_t extended);

bool ref_sound(const struct part *part);

/* *first is the first driven place. A transaction only reads array and rows. */
int ref_transact(struct part *part, const uint8_t *array, size_t array_length, const uint8_t *rows,
                 size_t rows_length, bool wp_high, const uint8_t *in, size_t in_length, uint8_t *out,
                 size_t out_length, size_t *first);

/* *worked is how many ticks did work. */
int ref_tick(struct part *part, uint8_t *array, size_t array_length, uint8_t *rows,
             size_t rows_length, uint32_t ticks, uint32_t *worked);

/* Request 2 of 02: a script. The transaction of each step is sent, and then its ticks run. `answers` takes each
 * transaction's answer and `done` how many of its ticks did work. *step is the step that stopped it, counted from 0, or
 * how many steps there are. The counts are those of the lists' entries. */
int ref_script(struct part *part, uint8_t *array, size_t array_length, uint8_t *rows, size_t rows_length,
               bool wp_high, const uint8_t *in, size_t in_length, const uint16_t *lengths, size_t lengths_count,
               const uint16_t *ticks, size_t ticks_count, uint8_t *out, size_t out_length, uint8_t *answers,
               size_t answers_count, uint16_t *done, size_t done_count, size_t *step);

/* Request 13 of 02: what a check says of a script. */
enum verdict {
    YES = 0,       /* every step answers 0, the part ends idle, and the array equals the image */
    AT_STEP = 1,   /* the first failing step; or how many steps there are, if the part is not idle */
    AT_ADDRESS = 2 /* the first differing address */
};

/* Runs the script, and compares. *where is the step or the address; it and *verdict are 0 when refused, and *where is 0
 * for YES. */
int ref_check(struct part *part, uint8_t *array, size_t array_length, uint8_t *rows, size_t rows_length,
              bool wp_high, const uint8_t *in, size_t in_length, const uint16_t *lengths, size_t lengths_count,
              const uint16_t *ticks, size_t ticks_count, uint8_t *out, size_t out_length, uint8_t *answers,
              size_t answers_count, uint16_t *done, size_t done_count, const uint8_t *image, size_t image_length,
              enum verdict *verdict, size_t *where);

/* Request 12 of 02: a map of blank pages. Page p is bit p % 8 of byte p / 8 of the map, which is 1 exactly when the page
 * is all FFh. */

/* Makes the map from the array. */
int ref_map_rebuild(uint64_t size, const uint8_t *array, size_t array_length, uint8_t *map, size_t map_length);

/* *next is the first blank page at or after `page`, or how many pages there are; 0 when refused. */
int ref_map_next(uint64_t size, const uint8_t *map, size_t map_length, uint64_t page, uint32_t *next);

/* Ticks and a script that keep the map: of each page that a working tick reaches the bit is made right. */
int ref_tick_map(struct part *part, uint8_t *array, size_t array_length, uint8_t *rows, size_t rows_length,
                 uint32_t ticks, uint32_t *worked, uint8_t *map, size_t map_length);
int ref_script_map(struct part *part, uint8_t *array, size_t array_length, uint8_t *rows, size_t rows_length,
                   bool wp_high, const uint8_t *in, size_t in_length, const uint16_t *lengths, size_t lengths_count,
                   const uint16_t *ticks, size_t ticks_count, uint8_t *out, size_t out_length, uint8_t *answers,
                   size_t answers_count, uint16_t *done, size_t done_count, size_t *step, uint8_t *map,
                   size_t map_length);

/* Request 7 of 02: wear, in whole numbers. One record for each sector of 4 Kbyte, lowest first. */
struct wear {
    uint32_t erases, programs;
};

#define REF_FULL UINT32_MAX /* a count's largest value, where it stays */

/* Ticks and a script that keep the records: an erase counts in each sector of its unit at the tick that finishes the
 * sector, and a page program at its last tick. The counts are those of the records. */
int ref_tick_wear(struct part *part, uint8_t *array, size_t array_length, uint8_t *rows, size_t rows_length,
                  uint32_t ticks, uint32_t *worked, struct wear *wear, size_t wear_count);
int ref_script_wear(struct part *part, uint8_t *array, size_t array_length, uint8_t *rows, size_t rows_length,
                    bool wp_high, const uint8_t *in, size_t in_length, const uint16_t *lengths, size_t lengths_count,
                    const uint16_t *ticks, size_t ticks_count, uint8_t *out, size_t out_length, uint8_t *answers,
                    size_t answers_count, uint16_t *done, size_t done_count, size_t *step, struct wear *wear,
                    size_t wear_count);

/* Bytes that are lent for the text of a part of this size. */
size_t ref_wear_text_bytes(uint64_t size);

/* Prints the records: one line a sector, then the largest and the total of each count. *written is how many bytes the
 * text has; 0 when refused. */
int ref_wear_text(uint64_t size, const struct wear *wear, size_t wear_count, uint8_t *text, size_t text_length,
                  size_t *written);

/* The protection question, of a code and a size in blocks. The code is BP3..BP0; on 512 blocks its bit 4 is TBS.
 * *first is the first protected block, and *count is how many are protected from it on. Both are 0 for none, and
 * when refused. */
int ref_protection(uint64_t code, uint64_t size, uint64_t *first, uint64_t *count);

#endif
