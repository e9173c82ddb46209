/* The board, made of the model: an 8 Mbit part on its bus, with WP# tied high. */
#include "board.h"

#include <stdio.h>
#include <stdlib.h>
#include <string.h>

#include "yawlspar.h"

#define BLOCKS 16u
#define BLOCK_BYTES 65536u
#define WP_HIGH 1u
#define TICKS_OF_A_DELAY 4u

static uint8_t record[YAWLSPAR_RECORD_BYTES];
static uint8_t array[BLOCKS * BLOCK_BYTES];
static uint8_t rows[1024];

static unsigned ignored, ignored_why;

/* The model refuses a call, with 1 to 6, only where this file is wrong. */
static unsigned not_refused(uint64_t result)
{
    unsigned number = (unsigned)YAWLSPAR_NUMBER(result);

    if (number >= YAWLSPAR_BAD_SIZE && number <= YAWLSPAR_BAD_TICKS) {
        fprintf(stderr, "board: the model refused a call: %u\n", number);
        exit(EXIT_FAILURE);
    }
    return number;
}

void board_new_part(uint8_t fill)
{
    if (!YAWLSPAR_MATCHES()) {
        fprintf(stderr, "board: yawlspar.h is of another version than libyawlspar.a\n");
        exit(EXIT_FAILURE);
    }
    memset(array, fill, sizeof array);
    memset(rows, 0xFF, sizeof rows);
    ignored = ignored_why = 0;
    /* maker, type, capacity and device; then the status, function and extended read registers */
    not_refused(yawlspar_power_up(record, sizeof record, BLOCKS, 0x9D, 0x60, 0x14, 0x13, 0x00, 0x00, 0x00));
}

void board_transfer(const uint8_t *out, uint8_t *in, size_t length)
{
    unsigned number = not_refused(yawlspar_transact(record, sizeof record, array, sizeof array, rows, sizeof rows, WP_HIGH,
                                                    out, length, in, length));

    if (number != YAWLSPAR_EXECUTED) {
        ignored++;
        ignored_why = number;
    }
}

void board_delay(void)
{
    not_refused(yawlspar_tick(record, sizeof record, array, sizeof array, rows, sizeof rows, TICKS_OF_A_DELAY));
}

unsigned board_ignored(void)
{
    return ignored;
}

unsigned board_ignored_why(void)
{
    return ignored_why;
}
