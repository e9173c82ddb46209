/* The model behind the reference's front end: the calls that tests/reference/bench.c makes, answered by the
 * proved archive through include/yawlspar.h. Linked with that front end it is the program bench_sizes (with the
 * argument `sizes` or `512`), so that a script runs on parts of every size, and with the argument `wear` the archive's
 * own wear. There is one part at a time. */
#include "../reference/reference.h"
#include "yawlspar.h"

static uint8_t record[YAWLSPAR_RECORD_BYTES];

int ref_power_up(struct part *part, uint32_t size, uint8_t m, uint8_t t, uint8_t c, uint8_t d,
                 uint8_t status, uint8_t function, uint8_t extended)
{
    part->size = size;
    return (int)yawlspar_power_up(record, sizeof record, size, m, t, c, d, status, function, extended);
}

int ref_transact(struct part *part, const uint8_t *array, size_t array_length, const uint8_t *rows,
                 size_t rows_length, bool wp_high, const uint8_t *in, size_t in_length, uint8_t *out,
                 size_t out_length, size_t *first)
{
    uint64_t answer = yawlspar_transact(record, sizeof record, array, array_length, rows, rows_length,
                                        wp_high ? 1 : 0, in, in_length, out, out_length);

    (void)part;
    *first = (size_t)YAWLSPAR_PLACE(answer);
    return (int)YAWLSPAR_NUMBER(answer);
}

int ref_tick(struct part *part, uint8_t *array, size_t array_length, uint8_t *rows,
             size_t rows_length, uint32_t ticks, uint32_t *worked)
{
    uint64_t answer = yawlspar_tick(record, sizeof record, array, array_length, rows, rows_length, ticks);

    (void)part;
    *worked = (uint32_t)YAWLSPAR_TICKS(answer);
    return (int)YAWLSPAR_NUMBER(answer);
}

#define WEAR_MOST YAWLSPAR_SECTORS(REF_LARGE)

static yawlspar_wear kept[WEAR_MOST];

/* The front end's records are the reference's: they are carried over and back. */
static void carry_over(const struct wear *wear, size_t count)
{
    size_t i;

    for (i = 0; i < count && i < WEAR_MOST; i++)
        kept[i] = (yawlspar_wear){wear[i].erases, wear[i].programs};
}

int ref_tick_wear(struct part *part, uint8_t *array, size_t array_length, uint8_t *rows, size_t rows_length,
                  uint32_t ticks, uint32_t *worked, struct wear *wear, size_t wear_count)
{
    uint64_t answer;
    size_t i;

    (void)part;
    carry_over(wear, wear_count);
    answer = yawlspar_tick_wear(record, sizeof record, array, array_length, rows, rows_length, ticks, kept, wear_count);
    for (i = 0; i < wear_count && i < WEAR_MOST; i++)
        wear[i] = (struct wear){kept[i].erases, kept[i].programs};
    *worked = (uint32_t)YAWLSPAR_TICKS(answer);
    return (int)YAWLSPAR_NUMBER(answer);
}

size_t ref_wear_text_bytes(uint64_t size)
{
    return (size_t)YAWLSPAR_WEAR_TEXT_BYTES(size);
}

int ref_wear_text(uint64_t size, const struct wear *wear, size_t wear_count, uint8_t *text, size_t text_length,
                  size_t *written)
{
    uint64_t answer;

    carry_over(wear, wear_count);
    answer = yawlspar_wear_text(size, kept, wear_count, text, text_length);
    *written = (size_t)YAWLSPAR_LENGTH(answer);
    return (int)YAWLSPAR_NUMBER(answer);
}
