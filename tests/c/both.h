/*
 * The functions of yawlspar.h and the reference model, run in step.
 *
 * Each call is made of both, on memory of its own for each, and the two are compared: the result, every
 * byte of the output, the array, the rows, the map, the wear and its text, and of a script every entry of its lists.
 * Guard bytes stand around each buffer. At the first difference the program tells the call and what differs, and ends with
 * status 1.
 *
 * An array of 512 blocks is compared in part after most calls, and whole when a run ends: see both.c.
 */
#ifndef BOTH_H
#define BOTH_H

#include <stdbool.h>
#include <stddef.h>
#include <stdint.h>

#include "../reference/reference.h"
#include "../traffic/chance.h"
#include "yawlspar.h"

/* How many bytes there are to lend, so that calls can be lent more than the right length. */
#define RECORD_ROOM (YAWLSPAR_RECORD_BYTES + 64u)
#define ARRAY_ROOM ((REF_LARGE + 1u) * REF_BLOCK)
#define ROWS_ROOM (2u * REF_ROWS)
#define MAP_ROOM YAWLSPAR_MAP_BYTES(REF_LARGE + 1u)
#define WEAR_ROOM YAWLSPAR_SECTORS(REF_LARGE + 1u) /* records */
#define TEXT_ROOM YAWLSPAR_WEAR_TEXT_BYTES(REF_LARGE + 1u)
#define MESSAGE_ROOM (2u * REF_MOST)
#define SCRIPT_ROOM (1u << 20) /* bytes of a script's input */
#define STEPS_ROOM 66000u      /* entries of its lists: more than 16 bits count */

enum call_kind {
    POWER_UP,
    TRANSACT,
    TICK,
    SCRIPT,
    CHECK,
    MAP_REBUILD,
    MAP_NEXT,
    TICK_MAP,
    SCRIPT_MAP,
    TICK_WEAR,
    SCRIPT_WEAR,
    WEAR_TEXT
};

/* One call, with the lengths that it is lent. The input's bytes are those of `message`; a script's are those of
 * `script`, with its lists, and so are a check's and those of a script that is lent a map or wear. */
struct call {
    enum call_kind kind;
    size_t record, array, rows, input, output;
    size_t lengths, tick_counts, answers, done; /* entries of a script's lists */
    size_t image;                               /* of a check */
    size_t map;
    uint64_t page; /* where a query begins */
    size_t wear;   /* records */
    size_t text;
    uint64_t wp_high;
    uint64_t ticks;
    uint64_t blocks, maker, type, capacity, device, status, function, extended;
};

/* What a side lends. */
struct side {
    uint8_t *record, *array, *rows, *input, *output, *answers;
    uint16_t *lengths, *ticks, *done;
    uint8_t *image; /* none before begin_images */
    uint8_t *map;   /* none before begin_maps */
    yawlspar_wear *wear; /* none before begin_wear, nor is the text */
    uint8_t *text;
};

/* The reference's side keeps the record's bytes as they were before the call. Where all calls are made of the model
 * alone, the two sides are two parts: see writes.h. The side `single` is for calls that the model makes one by one
 * where it also makes a script of them, for scripts that it makes where it also checks them, and for calls without a
 * map, or without wear, where it also makes them with it: see scripts.c, check.c, maps.c and wear.c. It has the
 * reference's image, map and wear. The side `split` is for calls with wear that are made in smaller ones: see wear.c. */
extern struct side model, reference, single, split;

/* The reference's record. Its size is 0 as long as there was no power-up: the record's bytes are then junk. */
extern struct part part;

extern uint8_t message[MESSAGE_ROOM];

extern struct script {
    uint8_t input[SCRIPT_ROOM];
    uint16_t lengths[STEPS_ROOM], ticks[STEPS_ROOM];
} script;

/* How many calls were made of the model and compared; how many of them were scripts, and the steps that these had; the
 * same of checks; how many were lent a map; and how many wear. */
extern uint64_t calls, scripts, script_steps, checks, check_steps, map_calls, wear_calls;

/* What the program calls itself in a report. Each program has its own. */
extern const char *const program_name;

/* Begins a run of calls: array and rows made of the seed, and junk for a record. A run does the same whatever ran
 * before it. `name` says in a report what run it is; name_run gives it another one for what follows. */
void begin_run(const char *name, uint64_t seed, uint32_t blocks);
void name_run(const char *name);

/* Make the side `single`, and the side `split`: with the model's record, array and rows. */
void begin_single(void);
void begin_split(void);

/* Makes the images, with the model's array in them. What changes an image later has to change both. */
void begin_images(void);

/* Makes the maps, with junk in them. What changes a map later has to change both. */
void begin_maps(void);

/* Makes the wear of all sides, with junk in it, and their texts. What changes it later has to change that of the model,
 * of the reference and of `split`. */
void begin_wear(void);

/* Fills stored bytes: with FFh, or with any. */
void fill(uint8_t *bytes, size_t length, struct chance *chance);

/* Asks for no ticks, and compares all memory. */
void end_run(void);

/* A call with the right lengths: a transaction with WP# high and one byte, 0 ticks, a power-up with zeros, a script or a
 * check of no steps with WP# high, a query from page 0, a text. */
struct call fitting(enum call_kind kind);

/* Makes the call of both and compares. Gives the result. */
uint64_t step(const struct call *call);

/* Makes the call of the model alone, on the memory of a side. */
uint64_t call_model(const struct side *side, const struct call *call);

/* The number of a result is one of the refusals 1 to 7 and 35 to 38. */
bool is_refusal(uint64_t result);

/* A script's four lists have one length, and its lengths add up to its input's. */
bool lists_fit(const struct call *call);

/* Makes input and output ready for a call on both sides: the message or the script, and junk to be written over. */
void prepare(const struct call *call);
void prepare_side(const struct side *side, const struct call *call);

/* Ends the program if the bytes of the two sides differ, guards included. */
void same_record(const struct call *call);
void same_memory(const struct call *call);

/* The same, but of 512 blocks only another few pages each time. */
void same_memory_in_part(const struct call *call);

/* The same of the side `model` and another: the record, and the memory as `memory` compares it. */
void compare_with(const struct side *other, const struct call *call, void (*memory)(const struct call *call));
void compare_with_single(const struct call *call, void (*memory)(const struct call *call));

/* The same of the array's places from `from` on, with a page on each side of them as far as there is one. */
void same_places(const struct call *call, size_t from, size_t length);

/* Tells the call and ends the program. */
void fail(const struct call *call, const char *what, uint64_t expected, uint64_t got) __attribute__((noreturn));
void fail_result(const struct call *call, uint64_t expected, uint64_t got) __attribute__((noreturn));

/* With no argument runs what is worked out by hand, and then the seeds 1 to `last`; with two, the seeds from one to the
 * other alone. With others it tells the usage and gives false. */
bool run_seeds(int argc, char **argv, void (*by_hand)(void), void (*run)(uint64_t seed), uint64_t last);

/* ---- The runs. ---- */

/* What a run of random traffic does with its power-ups and with the steps of the traffic (tests/traffic/). */
struct takers {
    void (*begin)(void); /* array and rows are made */
    void (*power_up)(const struct call *call);
    void (*send)(bool wp_high, const uint8_t *bytes, size_t length);
    void (*wait)(uint32_t ticks);
    void (*strange)(void);
    void (*settle)(void); /* makes what was put off: `part` is looked at next */
};

/* Begins such a run on a part of a size that the seed picks, and goes on for at least so many calls. */
void play_traffic(const struct takers *takers, const char *name, uint64_t seed, uint64_t least);

void directed_calls(void);
void large_calls(void);
void damaged_records(void);
void directed_scripts(void);
void random_calls(uint64_t seed, uint64_t least);
void random_scripts(uint64_t seed, uint64_t least);

#endif
