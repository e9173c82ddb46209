/*
 * Times the functions of yawlspar.h beside the reference model, and beside memcpy, memset or a plain loop where those
 * do the same with the same bytes. All of it runs in one process on the same memory.
 *
 *   perf                        print the table
 *   perf list                   print each job's number, its sides and its name
 *   perf run JOB SIDE TIMES     set up, do the job TIMES times on one side, and end: for counting instructions
 *
 * A job is a driver's errand: one call, or the calls that belong together; 64 calls beside a script of the same; a
 * check of a script beside that script with memcmp after it; and writes with a map of blank pages beside those without.
 * Writes with wear are beside those without it too, and the text of wear is a job.
 * The sides are model, reference and bytes, which is memcpy, memset or the plain loop. The numbers are no test: the exit
 * status is 0 whatever they are.
 */
#include <stdbool.h>
#include <stddef.h>
#include <stdint.h>

#include "../tests/reference/reference.h"
#include "yawlspar.h"

extern int printf(const char *format, ...) __attribute__((format(printf, 1, 2)));
extern void exit(int status) __attribute__((noreturn));
extern int strcmp(const char *, const char *);
extern long strtol(const char *text, char **end, int base);
extern int memcmp(const void *, const void *, unsigned long);
extern void *memcpy(void *, const void *, unsigned long);
extern void *memset(void *, int, unsigned long);

struct timespec {
    long seconds, nanoseconds;
};

extern int clock_gettime(int clock, struct timespec *time);

#define COUNT(list) (sizeof(list) / sizeof((list)[0]))
#define CLOCK_PROCESS_CPUTIME_ID 2 /* what else the machine does does not count */
#define LEAST_NANOSECONDS 200000000.0
#define ROUNDS 3
#define BLOCKS_MOST REF_LARGE
#define STEPS 64 /* of a script */
#define SECTORS 16 /* of an image, which is a block */
#define PAGES 256
#define FLASH_STEPS (2 * (SECTORS + PAGES)) /* of a script that flashes it */
#define FLASH_BYTES (SECTORS * (1 + 4) + PAGES * (1 + 4 + REF_PAGE))

static uint8_t record[YAWLSPAR_RECORD_BYTES];
static struct part part;
static uint8_t array[BLOCKS_MOST * REF_BLOCK], rows[REF_ROWS];
static uint8_t map[YAWLSPAR_MAP_BYTES(BLOCKS_MOST)];
static yawlspar_wear wear[YAWLSPAR_SECTORS(BLOCKS_MOST)];
static struct wear reference_wear[YAWLSPAR_SECTORS(BLOCKS_MOST)];
static uint8_t text[YAWLSPAR_WEAR_TEXT_BYTES(BLOCKS_MOST)];
static uint8_t input[REF_MOST], output[REF_MOST];
static uint16_t lengths[STEPS], ticks_asked[STEPS], ticks_done[STEPS];
static uint8_t answers[STEPS];
static size_t array_length;

/* A script that flashes an image: it erases each sector and programs each page. */
static struct {
    uint8_t image[REF_BLOCK], input[FLASH_BYTES], output[FLASH_BYTES], answers[FLASH_STEPS];
    uint16_t lengths[FLASH_STEPS], ticks_asked[FLASH_STEPS], ticks_done[FLASH_STEPS];
} flash;

/* ---- Both models ---- */

static void must_be(uint64_t got, uint64_t expected)
{
    if (got != expected) {
        printf("perf: a call answered %llu, not %llu\n", (unsigned long long)got, (unsigned long long)expected);
        exit(1);
    }
}

static void set_up(uint32_t blocks)
{
    array_length = (size_t)blocks * REF_BLOCK;
    memset(array, 0xFF, array_length);
    memset(rows, 0xFF, sizeof rows);
    memset(input, 0xFF, sizeof input);
    must_be(yawlspar_power_up(record, sizeof record, blocks, 0x9D, 0x60, 0x14, 0x13, 0, 0, 0), 0);
    must_be((uint64_t)ref_power_up(&part, blocks, 0x9D, 0x60, 0x14, 0x13, 0, 0, 0), 0);
}

static uint64_t model_transact(size_t length)
{
    return YAWLSPAR_NUMBER(yawlspar_transact(record, sizeof record, array, array_length, rows, sizeof rows, 1, input,
                                             length, output, length));
}

static uint64_t reference_transact(size_t length)
{
    size_t first;

    return (uint64_t)ref_transact(&part, array, array_length, rows, sizeof rows, true, input, length, output, length,
                                  &first);
}

static uint64_t model_tick(uint32_t ticks)
{
    return YAWLSPAR_TICKS(yawlspar_tick(record, sizeof record, array, array_length, rows, sizeof rows, ticks));
}

static uint64_t reference_tick(uint32_t ticks)
{
    uint32_t worked;

    ref_tick(&part, array, array_length, rows, sizeof rows, ticks, &worked);
    return worked;
}

/* A script of all that is in the input and in the lists. Gives the step, which is the number of steps. */
static uint64_t model_script(size_t length)
{
    return YAWLSPAR_STEP(yawlspar_script(record, sizeof record, array, array_length, rows, sizeof rows, 1, input, length,
                                         lengths, STEPS, ticks_asked, STEPS, output, length, answers, STEPS, ticks_done,
                                         STEPS));
}

static uint64_t reference_script(size_t length)
{
    size_t step;

    ref_script(&part, array, array_length, rows, sizeof rows, true, input, length, lengths, STEPS, ticks_asked, STEPS,
               output, length, answers, STEPS, ticks_done, STEPS, &step);
    return step;
}

/* The script that flashes the image. Gives the step, which is the number of steps. */
static uint64_t model_flash(void)
{
    return YAWLSPAR_STEP(yawlspar_script(record, sizeof record, array, array_length, rows, sizeof rows, 1, flash.input,
                                         FLASH_BYTES, flash.lengths, FLASH_STEPS, flash.ticks_asked, FLASH_STEPS,
                                         flash.output, FLASH_BYTES, flash.answers, FLASH_STEPS, flash.ticks_done,
                                         FLASH_STEPS));
}

static uint64_t reference_flash(void)
{
    size_t step;

    ref_script(&part, array, array_length, rows, sizeof rows, true, flash.input, FLASH_BYTES, flash.lengths, FLASH_STEPS,
               flash.ticks_asked, FLASH_STEPS, flash.output, FLASH_BYTES, flash.answers, FLASH_STEPS, flash.ticks_done,
               FLASH_STEPS, &step);
    return step;
}

/* A check of it. Gives the result, which is 0 for yes. */
static uint64_t model_check(void)
{
    return yawlspar_check(record, sizeof record, array, array_length, rows, sizeof rows, 1, flash.input, FLASH_BYTES,
                          flash.lengths, FLASH_STEPS, flash.ticks_asked, FLASH_STEPS, flash.output, FLASH_BYTES,
                          flash.answers, FLASH_STEPS, flash.ticks_done, FLASH_STEPS, flash.image, sizeof flash.image);
}

static uint64_t reference_check(void)
{
    enum verdict verdict;
    size_t where;
    int number = ref_check(&part, array, array_length, rows, sizeof rows, true, flash.input, FLASH_BYTES, flash.lengths,
                           FLASH_STEPS, flash.ticks_asked, FLASH_STEPS, flash.output, FLASH_BYTES, flash.answers,
                           FLASH_STEPS, flash.ticks_done, FLASH_STEPS, flash.image, sizeof flash.image, &verdict,
                           &where);

    return (uint64_t)number + 256 * (uint64_t)verdict + 65536 * (uint64_t)where;
}

static size_t map_length(void)
{
    return YAWLSPAR_MAP_BYTES(array_length / REF_BLOCK);
}

static uint64_t model_tick_map(uint32_t ticks)
{
    return YAWLSPAR_TICKS(yawlspar_tick_map(record, sizeof record, array, array_length, rows, sizeof rows, ticks, map,
                                            map_length()));
}

static uint64_t reference_tick_map(uint32_t ticks)
{
    uint32_t worked;

    ref_tick_map(&part, array, array_length, rows, sizeof rows, ticks, &worked, map, map_length());
    return worked;
}

static uint64_t model_rebuild(void)
{
    return yawlspar_map_rebuild(array_length / REF_BLOCK, array, array_length, map, map_length());
}

static uint64_t reference_rebuild(void)
{
    return (uint64_t)ref_map_rebuild(array_length / REF_BLOCK, array, array_length, map, map_length());
}

/* Gives the page. */
static uint64_t model_next(uint64_t page)
{
    return YAWLSPAR_PAGE(yawlspar_map_next(array_length / REF_BLOCK, map, map_length(), page));
}

static uint64_t reference_next(uint64_t page)
{
    uint32_t next;

    ref_map_next(array_length / REF_BLOCK, map, map_length(), page, &next);
    return next;
}

static size_t sectors(void)
{
    return YAWLSPAR_SECTORS(array_length / REF_BLOCK);
}

static uint64_t model_tick_wear(uint32_t ticks)
{
    return YAWLSPAR_TICKS(yawlspar_tick_wear(record, sizeof record, array, array_length, rows, sizeof rows, ticks, wear,
                                             sectors()));
}

static uint64_t reference_tick_wear(uint32_t ticks)
{
    uint32_t worked;

    ref_tick_wear(&part, array, array_length, rows, sizeof rows, ticks, &worked, reference_wear, sectors());
    return worked;
}

/* Give the length of the text. */
static uint64_t model_text(void)
{
    return YAWLSPAR_LENGTH(yawlspar_wear_text(array_length / REF_BLOCK, wear, sectors(), text,
                                              YAWLSPAR_WEAR_TEXT_BYTES(array_length / REF_BLOCK)));
}

static uint64_t reference_text(void)
{
    size_t length;

    ref_wear_text(array_length / REF_BLOCK, reference_wear, sectors(), text,
                  YAWLSPAR_WEAR_TEXT_BYTES(array_length / REF_BLOCK), &length);
    return length;
}

struct one_model {
    uint64_t (*transact)(size_t length);
    uint64_t (*tick)(uint32_t ticks);
    uint64_t (*script)(size_t length);
    uint64_t (*flash)(void);
    uint64_t (*check)(void);
    uint64_t (*tick_map)(uint32_t ticks);
    uint64_t (*rebuild)(void);
    uint64_t (*next)(uint64_t page);
    uint64_t (*tick_wear)(uint32_t ticks);
    uint64_t (*text)(void);
};

static const struct one_model the_model = {model_transact, model_tick,    model_script, model_flash,     model_check,
                                           model_tick_map, model_rebuild, model_next,   model_tick_wear, model_text};
static const struct one_model the_reference = {reference_transact,  reference_tick,     reference_script,
                                               reference_flash,     reference_check,    reference_tick_map,
                                               reference_rebuild,   reference_next,     reference_tick_wear,
                                               reference_text};

/* ---- Jobs ---- */

static void put(uint8_t code, uint32_t address)
{
    input[0] = code;
    input[1] = (uint8_t)(address >> 16);
    input[2] = (uint8_t)(address >> 8);
    input[3] = (uint8_t)address;
}

static void status_job(const struct one_model *on)
{
    input[0] = 0x05;
    must_be(on->transact(2), 0);
}

static void status_calls_job(const struct one_model *on)
{
    int i;

    input[0] = 0x05;
    for (i = 0; i < STEPS; i++)
        must_be(on->transact(2), 0);
}

/* The input and the lists of as many status reads; no ticks pass after them. */
static void begin_script(const struct one_model *on)
{
    size_t i;

    (void)on;
    for (i = 0; i < STEPS; i++) {
        lengths[i] = 2;
        input[2 * i] = 0x05;
    }
}

static void status_script_job(const struct one_model *on)
{
    must_be(on->script(2 * STEPS), STEPS);
}

static size_t flash_steps, flash_bytes;

/* 06h, and a command at an address with these bytes after it. */
static void add_write(uint8_t code, uint32_t address, const uint8_t *data, size_t count, uint16_t ticks)
{
    uint8_t *sent = flash.input + flash_bytes;

    sent[0] = 0x06;
    flash.lengths[flash_steps] = 1;
    sent[1] = code;
    sent[2] = (uint8_t)(address >> 16);
    sent[3] = (uint8_t)(address >> 8);
    sent[4] = (uint8_t)address;
    if (count > 0)
        memcpy(sent + 5, data, count);
    flash.lengths[flash_steps + 1] = (uint16_t)(4 + count);
    flash.ticks_asked[flash_steps + 1] = ticks;
    flash_steps += 2;
    flash_bytes += 5 + count;
}

static uint32_t following(uint32_t number)
{
    return number * 1664525 + 1013904223;
}

/* An array of any bytes, and an image of any bytes but FFh: every sector is erased, and every page programmed whole. The
 * first job leaves the image, and those after it find it there: they do the same. */
static void begin_flash(const struct one_model *on)
{
    uint32_t number = 1, i;

    (void)on;
    for (i = 0; i < REF_BLOCK; i++) {
        number = following(number);
        array[i] = (uint8_t)(number >> 24);
        flash.image[i] = (uint8_t)((number >> 8) % 255);
    }
    flash_steps = 0;
    flash_bytes = 0;
    for (i = 0; i < SECTORS; i++)
        add_write(0x20, i * 4096, NULL, 0, 16);
    for (i = 0; i < PAGES; i++)
        add_write(0x02, i * REF_PAGE, flash.image + i * REF_PAGE, REF_PAGE, REF_PAGE);
}

static void check_job(const struct one_model *on)
{
    must_be(on->check(), 0);
}

/* Through a pointer, so that the compiler cannot leave it out. */
static int (*volatile compare)(const void *, const void *, unsigned long) = memcmp;

static void script_and_compare_job(const struct one_model *on)
{
    must_be(on->flash(), FLASH_STEPS);
    must_be((uint64_t)compare(array, flash.image, array_length), 0);
}

static void extended_job(const struct one_model *on)
{
    input[0] = 0x81;
    must_be(on->transact(2), 0);
}

/* The part is left busy with a sector erase that has no tick done. */
static void begin_erase(const struct one_model *on)
{
    input[0] = 0x06;
    must_be(on->transact(1), 0);
    put(0xD7, 0x002000);
    must_be(on->transact(4), 0);
}

/* The part is left suspended from a sector erase. */
static void begin_suspended(const struct one_model *on)
{
    begin_erase(on);
    input[0] = 0x75;
    must_be(on->transact(1), 0);
}

/* The part is left with its top block protected, and write enabled. */
static void begin_protected(const struct one_model *on)
{
    input[0] = 0x06;
    must_be(on->transact(1), 0);
    input[0] = 0x01;
    input[1] = 0x04; /* code 1 */
    must_be(on->transact(2), 0);
    must_be(on->tick(1), 1);
    input[0] = 0x06;
    must_be(on->transact(1), 0);
}

static void barred_erase_job(const struct one_model *on)
{
    put(0xD7, 0x0F2000);
    must_be(on->transact(4), 28);
}

static void barred_program_job(const struct one_model *on)
{
    put(0x02, 0x0F1200);
    must_be(on->transact(260), 28);
}

static void ignored_job(const struct one_model *on)
{
    input[0] = 0xFF; /* in no row of the command table */
    must_be(on->transact(1), 20);
}

static void enable_job(const struct one_model *on)
{
    input[0] = 0x06;
    must_be(on->transact(1), 0);
}

static void busy_job(const struct one_model *on)
{
    input[0] = 0x06;
    must_be(on->transact(1), 22);
}

static void no_tick_job(const struct one_model *on)
{
    must_be(on->tick(0), 0);
}

/* Nothing runs that can be suspended. */
static void no_suspend_job(const struct one_model *on)
{
    input[0] = 0x75;
    must_be(on->transact(1), 25);
}

static void suspended_already_job(const struct one_model *on)
{
    input[0] = 0x75;
    must_be(on->transact(1), 23);
}

/* The erase that runs is suspended, and resumed. */
static void suspend_job(const struct one_model *on)
{
    input[0] = 0x75;
    must_be(on->transact(1), 0);
    input[0] = 0x7A;
    must_be(on->transact(1), 0);
}

static void reset_job(const struct one_model *on)
{
    input[0] = 0x66;
    must_be(on->transact(1), 0);
    input[0] = 0x99;
    must_be(on->transact(1), 0);
}

static void read_job(const struct one_model *on)
{
    put(0x03, 0x001234);
    must_be(on->transact(4096), 0);
}

/* Four address bytes, in the upper 16 Mbyte. */
static void put_far(uint8_t code, uint32_t address)
{
    put(code, address >> 8);
    input[4] = (uint8_t)address;
}

static void far_read_job(const struct one_model *on)
{
    put_far(0x13, 0x01001234);
    must_be(on->transact(4096), 0);
}

static void enter_far(const struct one_model *on)
{
    input[0] = 0xB7;
    must_be(on->transact(1), 0);
}

static void start_write(const struct one_model *on, size_t length)
{
    uint8_t code = input[0];

    input[0] = 0x06;
    must_be(on->transact(1), 0);
    input[0] = code;
    must_be(on->transact(length), 0);
}

static void write_job(const struct one_model *on, size_t length, uint32_t ticks)
{
    start_write(on, length);
    must_be(on->tick(ticks), ticks);
}

/* The same, and the map is kept. */
static void write_map_job(const struct one_model *on, size_t length, uint32_t ticks)
{
    start_write(on, length);
    must_be(on->tick_map(ticks), ticks);
}

/* The same, and wear is counted. */
static void write_wear_job(const struct one_model *on, size_t length, uint32_t ticks)
{
    start_write(on, length);
    must_be(on->tick_wear(ticks), ticks);
}

static void program_job(const struct one_model *on)
{
    put(0x02, 0x001200);
    write_job(on, 260, 256);
}

/* FFh is programmed over FFh: all of the page is looked at. */
static void program_map_job(const struct one_model *on)
{
    put(0x02, 0x001200);
    write_map_job(on, 260, 256);
}

static void program_wear_job(const struct one_model *on)
{
    put(0x02, 0x001200);
    write_wear_job(on, 260, 256);
}

static void far_program_job(const struct one_model *on)
{
    put_far(0x02, 0x01001200);
    write_job(on, 261, 256);
}

static void sector_job(const struct one_model *on)
{
    put(0xD7, 0x002000);
    write_job(on, 4, 16);
}

static void sector_map_job(const struct one_model *on)
{
    put(0xD7, 0x002000);
    write_map_job(on, 4, 16);
}

static void sector_wear_job(const struct one_model *on)
{
    put(0xD7, 0x002000);
    write_wear_job(on, 4, 16);
}

static void sector_steps_job(const struct one_model *on)
{
    int i;

    input[0] = 0x06;
    must_be(on->transact(1), 0);
    put(0xD7, 0x002000);
    must_be(on->transact(4), 0);
    for (i = 0; i < 16; i++)
        must_be(on->tick(1), 1);
}

static void chip_job(const struct one_model *on)
{
    input[0] = 0xC7;
    write_job(on, 1, (uint32_t)(array_length / REF_PAGE));
}

static void chip_map_job(const struct one_model *on)
{
    input[0] = 0xC7;
    write_map_job(on, 1, (uint32_t)(array_length / REF_PAGE));
}

static void chip_wear_job(const struct one_model *on)
{
    input[0] = 0xC7;
    write_wear_job(on, 1, (uint32_t)(array_length / REF_PAGE));
}

/* ---- Maps of blank pages ---- */

#define FROM_PAGE 3  /* a query begins here */
#define NEAR_PAGE 20 /* and finds this page, or none */

static void begin_map(const struct one_model *on)
{
    must_be(on->rebuild(), 0);
}

static void begin_any_bytes(const struct one_model *on)
{
    uint32_t number = 1;
    size_t i;

    (void)on;
    for (i = 0; i < array_length; i++) {
        number = following(number);
        array[i] = (uint8_t)(number >> 24);
    }
}

static void begin_full_map(const struct one_model *on)
{
    memset(array, 0x00, array_length);
    begin_map(on);
}

static void begin_near_map(const struct one_model *on)
{
    memset(array, 0x00, array_length);
    memset(array + NEAR_PAGE * REF_PAGE, 0xFF, REF_PAGE);
    begin_map(on);
}

static void rebuild_job(const struct one_model *on)
{
    must_be(on->rebuild(), 0);
}

static void next_none_job(const struct one_model *on)
{
    must_be(on->next(FROM_PAGE), array_length / REF_PAGE);
}

static void next_near_job(const struct one_model *on)
{
    must_be(on->next(FROM_PAGE), NEAR_PAGE);
}

/* The plain loop: each page is compared with a blank one. */
static void rebuild_bytes(void)
{
    static uint8_t blank[REF_PAGE];
    size_t page;

    memset(blank, 0xFF, sizeof blank);
    memset(map, 0, map_length());
    for (page = 0; page < array_length / REF_PAGE; page++)
        if (memcmp(array + page * REF_PAGE, blank, sizeof blank) == 0)
            map[page / 8] |= (uint8_t)(1u << page % 8);
}

/* The plain loop: bytes that are 0 are passed over, and in the others the bits are looked at one by one. */
static size_t plain_next(size_t page)
{
    while (page < 8 * map_length()) {
        if ((map[page / 8] >> page % 8 & 1) != 0)
            break;
        page = map[page / 8] == 0 ? (page / 8 + 1) * 8 : page + 1;
    }
    return page;
}

static void next_none_bytes(void)
{
    must_be(plain_next(FROM_PAGE), array_length / REF_PAGE);
}

static void next_near_bytes(void)
{
    must_be(plain_next(FROM_PAGE), NEAR_PAGE);
}

/* ---- Wear ---- */

static uint64_t text_bytes; /* of the wear at hand, by the plain loop */

static uint8_t *put_decimal(uint8_t *at, uint64_t number)
{
    uint8_t digits[20];
    size_t count = 0;

    do {
        digits[count++] = (uint8_t)('0' + number % 10);
        number /= 10;
    } while (number != 0);
    while (count > 0)
        *at++ = digits[--count];
    return at;
}

static uint8_t *put_words(uint8_t *at, const char *words)
{
    while (*words != 0)
        *at++ = (uint8_t)*words++;
    return at;
}

static uint8_t *put_counts(uint8_t *at, uint64_t erases, uint64_t programs, const char *end)
{
    *at++ = ' ';
    at = put_decimal(at, erases);
    *at++ = ' ';
    at = put_decimal(at, programs);
    return put_words(at, end);
}

/* The plain loop, as a C programmer has it. It judges no argument. */
static uint64_t plain_text(void)
{
    uint64_t erases = 0, programs = 0;
    yawlspar_wear largest = {0, 0};
    uint8_t *at = text;
    size_t s;

    for (s = 0; s < sectors(); s++) {
        yawlspar_wear one = wear[s];

        at = put_counts(put_decimal(at, s), one.erases, one.programs,
                        one.erases == UINT32_MAX || one.programs == UINT32_MAX ? " full\n" : "\n");
        if (one.erases > largest.erases)
            largest.erases = one.erases;
        if (one.programs > largest.programs)
            largest.programs = one.programs;
        erases += one.erases;
        programs += one.programs;
    }
    at = put_counts(put_words(at, "largest"), largest.erases, largest.programs, "\ntotal");
    at = put_counts(at, erases, programs, "\n");
    return (uint64_t)(at - text);
}

static void begin_no_wear(const struct one_model *on)
{
    (void)on;
    memset(wear, 0, sizeof wear);
    memset(reference_wear, 0, sizeof reference_wear);
    text_bytes = plain_text();
}

/* Counts of one to ten digits, and of each length as many. */
static void begin_any_wear(const struct one_model *on)
{
    uint32_t number = 1, divisor = 1, counts[2];
    size_t s, i;

    (void)on;
    for (s = 0; s < sectors(); s++) {
        for (i = 0; i < 2; i++) {
            number = following(number);
            counts[i] = (number | 0x80000000) / divisor;
            divisor = divisor == 1000000000 ? 1 : 10 * divisor;
        }
        wear[s] = (yawlspar_wear){counts[0], counts[1]};
        reference_wear[s] = (struct wear){counts[0], counts[1]};
    }
    text_bytes = plain_text();
}

static void text_job(const struct one_model *on)
{
    must_be(on->text(), text_bytes);
}

static void text_plain_bytes(void)
{
    must_be(plain_text(), text_bytes);
}

/* The calls go through pointers, so that the compiler cannot leave one out. */
static void *(*volatile copy)(void *, const void *, unsigned long) = memcpy;
static void *(*volatile fill)(void *, int, unsigned long) = memset;

static void read_bytes(void)
{
    copy(output, array + 0x001234, 4092);
}

static void far_read_bytes(void)
{
    copy(output, array + 0x01001234, 4091);
}

static void sector_bytes(void)
{
    fill(array + 0x002000, 0xFF, 4096);
}

static void chip_bytes(void)
{
    fill(array, 0xFF, array_length);
}

struct job {
    const char *name;
    uint32_t blocks;
    uint32_t bytes; /* read, programmed or erased by one job, or those of a list that it reads */
    void (*first)(const struct one_model *); /* done once before the jobs, or none */
    void (*on)(const struct one_model *);
    void (*bytes_alone)(void); /* or none */
};

static const struct job jobs[] = {
    {"05h of 2 bytes, 1 block", 1, 1, NULL, status_job, NULL},
    {"05h of 2 bytes, 16 blocks", 16, 1, NULL, status_job, NULL},
    {"64 calls of 05h of 2 bytes", 16, STEPS, NULL, status_calls_job, NULL},
    {"64 steps of 05h in a script", 16, STEPS, begin_script, status_script_job, NULL},
    {"a check of an image of 16 sectors", 1, REF_BLOCK, begin_flash, check_job, NULL},
    {"the same by a script and memcmp", 1, REF_BLOCK, begin_flash, script_and_compare_job, NULL},
    {"05h of 2 bytes, busy, 16 blocks", 16, 1, begin_erase, status_job, NULL},
    {"81h of 2 bytes, 16 blocks", 16, 1, NULL, extended_job, NULL},
    {"ignored, 1 byte, 16 blocks", 16, 0, NULL, ignored_job, NULL},
    {"D7h, protected: 28, 16 blocks", 16, 0, begin_protected, barred_erase_job, NULL},
    {"02h, protected: 28, 16 blocks", 16, 0, begin_protected, barred_program_job, NULL},
    {"06h, 16 blocks", 16, 0, NULL, enable_job, NULL},
    {"06h, busy: 22, 16 blocks", 16, 0, begin_erase, busy_job, NULL},
    {"05h of 2 bytes, suspended", 16, 1, begin_suspended, status_job, NULL},
    {"75h, idle: 25, 16 blocks", 16, 0, NULL, no_suspend_job, NULL},
    {"75h, suspended: 23, 16 blocks", 16, 0, begin_suspended, suspended_already_job, NULL},
    {"75h, 7Ah, 16 blocks", 16, 0, begin_erase, suspend_job, NULL},
    {"66h, 99h, 16 blocks", 16, 0, NULL, reset_job, NULL},
    {"no tick, idle, 16 blocks", 16, 0, NULL, no_tick_job, NULL},
    {"no tick, busy, 16 blocks", 16, 0, begin_erase, no_tick_job, NULL},
    {"no tick, suspended, 16 blocks", 16, 0, begin_suspended, no_tick_job, NULL},
    {"03h of 4,096 bytes, 16 blocks", 16, 4092, NULL, read_job, read_bytes},
    {"06h, 02h, 256 ticks, 16 blocks", 16, 256, NULL, program_job, NULL},
    {"06h, 02h, 256 ticks, erase suspend", 16, 256, begin_suspended, program_job, NULL},
    {"06h, D7h, 16 ticks, 16 blocks", 16, 4096, NULL, sector_job, sector_bytes},
    {"06h, D7h, 16 times 1 tick", 16, 4096, NULL, sector_steps_job, NULL},
    {"06h, C7h, 4,096 ticks, 16 blocks", 16, 1048576, NULL, chip_job, chip_bytes},
    {"06h, 02h, 256 ticks, with a map", 16, 256, begin_map, program_map_job, NULL},
    {"06h, D7h, 16 ticks, with a map", 16, 4096, begin_map, sector_map_job, sector_bytes},
    {"06h, C7h, 4,096 ticks, with a map", 16, 1048576, begin_map, chip_map_job, chip_bytes},
    {"rebuild of a map, blank, 16 blocks", 16, 1048576, NULL, rebuild_job, rebuild_bytes},
    {"rebuild of a map, random, 16 blocks", 16, 1048576, begin_any_bytes, rebuild_job, rebuild_bytes},
    {"next blank page, none, 16 blocks", 16, 512, begin_full_map, next_none_job, next_none_bytes},
    {"next blank page, near, 16 blocks", 16, 3, begin_near_map, next_near_job, next_near_bytes},
    {"06h, 02h, 256 ticks, with wear", 16, 256, begin_no_wear, program_wear_job, NULL},
    {"06h, D7h, 16 ticks, with wear", 16, 4096, begin_no_wear, sector_wear_job, sector_bytes},
    {"06h, C7h, 4,096 ticks, with wear", 16, 1048576, begin_no_wear, chip_wear_job, chip_bytes},
    {"text of wear, zeros, 16 blocks", 16, 2048, begin_no_wear, text_job, text_plain_bytes},
    {"text of wear, any counts, 16 blocks", 16, 2048, begin_any_wear, text_job, text_plain_bytes},
    {"05h of 2 bytes, 512 blocks", 512, 1, NULL, status_job, NULL},
    {"03h of 4,096 bytes, 512 blocks", 512, 4092, NULL, read_job, read_bytes},
    {"13h of 4,096 bytes, 512 blocks", 512, 4091, NULL, far_read_job, far_read_bytes},
    {"06h, 02h far, 256 ticks, 512 blocks", 512, 256, enter_far, far_program_job, NULL},
    {"06h, C7h, 131,072 ticks, 512 blocks", 512, 33554432, NULL, chip_job, chip_bytes},
};

/* Whether the archive has the calls of the job. NO_WEAR is defined where it has none with wear. */
static bool is_there(const struct job *job)
{
#ifdef NO_WEAR
    return job->first != begin_no_wear && job->first != begin_any_wear;
#else
    (void)job;
    return true;
#endif
}

static void begin(const struct job *job)
{
    set_up(job->blocks);
    if (job->first != NULL) {
        job->first(&the_model);
        job->first(&the_reference);
    }
}

enum side { MODEL, REFERENCE, BYTES };

static void do_job(const struct job *job, enum side side, long times)
{
    for (; times > 0; times--) {
        if (side == BYTES)
            job->bytes_alone();
        else
            job->on(side == MODEL ? &the_model : &the_reference);
    }
}

/* ---- Times ---- */

static double now(void)
{
    struct timespec time;

    clock_gettime(CLOCK_PROCESS_CPUTIME_ID, &time);
    return (double)time.seconds * 1e9 + (double)time.nanoseconds;
}

static double nanoseconds_of(const struct job *job, enum side side, long times)
{
    double before = now();

    do_job(job, side, times);
    return now() - before;
}

/* How often a job is done for the clock to tell. */
static long enough_times(const struct job *job, enum side side)
{
    long times = 1;

    while (nanoseconds_of(job, side, times) < LEAST_NANOSECONDS)
        times *= 2;
    return times;
}

/* The best of some rounds, in nanoseconds a job. */
static double time_of(const struct job *job, enum side side)
{
    double best = 0;
    long times;
    int round;

    if (side == BYTES && job->bytes_alone == NULL)
        return 0;
    times = enough_times(job, side);
    for (round = 0; round < ROUNDS; round++) {
        double one = nanoseconds_of(job, side, times) / (double)times;

        if (round == 0 || one < best)
            best = one;
    }
    return best;
}

/* ---- Output ---- */

static void print_ratio(double model, double other)
{
    if (other > 0)
        printf(" %9.2f", model / other);
    else
        printf(" %9s", "-");
}

static void print_rate(double bytes, double nanoseconds)
{
    if (bytes > 0 && nanoseconds > 0)
        printf(" %9.1f", bytes * 1000 / nanoseconds);
    else
        printf(" %9s", "-");
}

static void print_job(const struct job *job)
{
    double model, reference, bytes;

    begin(job);
    model = time_of(job, MODEL);
    reference = time_of(job, REFERENCE);
    bytes = time_of(job, BYTES);
    printf("%-36s %11.0f %11.0f", job->name, 1e9 / model, 1e9 / reference);
    print_rate(job->bytes, model);
    print_rate(job->bytes, reference);
    print_rate(job->bytes, bytes);
    print_ratio(model, reference);
    print_ratio(model, bytes);
    printf("\n");
}

static void print_table(void)
{
    size_t i;

    printf("%-36s %23s %29s %19s\n", "", "jobs per second", "Mbyte per second", "model's time by");
    printf("%-36s %11s %11s %9s %9s %9s %9s %9s\n", "job", "model", "reference", "model", "reference", "bytes",
           "reference", "bytes");
    for (i = 0; i < COUNT(jobs); i++)
        if (is_there(&jobs[i]))
            print_job(&jobs[i]);
}

static void print_list(void)
{
    size_t i;

    for (i = 0; i < COUNT(jobs); i++)
        if (is_there(&jobs[i]))
            printf("%zu %s %s\n", i, jobs[i].bytes_alone == NULL ? "model,reference" : "model,reference,bytes",
                   jobs[i].name);
}

/* ---- Arguments ---- */

static bool number_of(const char *text, long most, long *number)
{
    char *end;

    *number = strtol(text, &end, 10);
    return end != text && *end == 0 && *number >= 0 && *number <= most;
}

static bool side_of(const char *text, enum side *side)
{
    static const char *const names[] = {"model", "reference", "bytes"};
    size_t i;

    for (i = 0; i < COUNT(names); i++)
        if (strcmp(text, names[i]) == 0) {
            *side = (enum side)i;
            return true;
        }
    return false;
}

static bool run_one(char **arguments)
{
    enum side side;
    long job, times;

    if (!number_of(arguments[0], COUNT(jobs) - 1, &job) || !side_of(arguments[1], &side) ||
        !number_of(arguments[2], 1000000000, &times))
        return false;
    if (side == BYTES && jobs[job].bytes_alone == NULL)
        return false;
    begin(&jobs[job]);
    do_job(&jobs[job], side, times);
    return true;
}

int main(int argc, char **argv)
{
    if (argc == 1)
        print_table();
    else if (argc == 2 && strcmp(argv[1], "list") == 0)
        print_list();
    else if (argc != 5 || strcmp(argv[1], "run") != 0 || !run_one(argv + 2)) {
        printf("usage: perf | perf list | perf run JOB SIDE TIMES\n");
        return 2;
    }
    return 0;
}
