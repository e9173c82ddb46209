/*
 * Every number that a call can answer, in words, and a call that is answered so.
 *
 * A test of a driver prints such words where the model answers something else than 0. What this program prints is in
 * answers.out.
 */
#include <stdint.h>
#include <stdio.h>
#include <stdlib.h>
#include <string.h>

#include "yawlspar.h"

static const char *words_of(uint64_t number)
{
    switch (number) {
    case YAWLSPAR_EXECUTED:
        return "executed";
    case YAWLSPAR_BAD_SIZE:
        return "refused: the size is none, or the array is not of that size";
    case YAWLSPAR_BAD_ROWS:
        return "refused: the rows are not 1,024 bytes";
    case YAWLSPAR_BAD_INPUT:
        return "refused: the input is empty, or longer than 4,096 bytes";
    case YAWLSPAR_BAD_OUTPUT:
        return "refused: the output is not as long as the input";
    case YAWLSPAR_BAD_RECORD:
        return "refused: the bytes hold no sound record, or a number is out of its range";
    case YAWLSPAR_BAD_TICKS:
        return "refused: too many ticks for one call";
    case YAWLSPAR_BAD_LISTS:
        return "refused: the lists of a script do not fit each other or its input";
    case YAWLSPAR_UNKNOWN:
        return "ignored: no command of this part";
    case YAWLSPAR_ASLEEP:
        return "ignored: asleep";
    case YAWLSPAR_BUSY:
        return "ignored: busy";
    case YAWLSPAR_SUSPENDED:
        return "ignored: suspended";
    case YAWLSPAR_WRONG_LENGTH:
        return "ignored: wrong length";
    case YAWLSPAR_OUT_OF_TURN:
        return "ignored: nothing to suspend or to resume, or reset not armed";
    case YAWLSPAR_NOT_ENABLED:
        return "ignored: WEL is 0";
    case YAWLSPAR_NO_SUCH_ROW:
        return "ignored: not an address of a row";
    case YAWLSPAR_PROTECTED:
        return "ignored: protected, locked, being erased, or barred by WP#";
    case YAWLSPAR_BAD_MAP:
        return "refused: the map has not one bit for each page";
    case YAWLSPAR_BAD_PAGE:
        return "refused: the part has no such page";
    case YAWLSPAR_BAD_IMAGE:
        return "refused: the image is not as long as the array";
    default:
        return "no number of this version";
    }
}

/* ---- A part of 2 Mbit ---- */

#define BLOCKS 4u
#define WP_HIGH 1u

static uint8_t record[YAWLSPAR_RECORD_BYTES], array[BLOCKS * 65536u], rows[1024];
static uint8_t output[8];

static uint64_t power_up(uint64_t blocks)
{
    return yawlspar_power_up(record, sizeof record, blocks, 0x9D, 0x70, 0x12, 0x11, 0x00, 0x00, 0x00);
}

/* A transaction on buffers of these lengths. */
static uint64_t transact(size_t record_len, size_t rows_len, const uint8_t *input, size_t length, size_t output_len)
{
    return yawlspar_transact(record, record_len, array, sizeof array, rows, rows_len, WP_HIGH, input, length, output,
                             output_len);
}

static uint64_t wait(uint64_t ticks)
{
    return yawlspar_tick(record, sizeof record, array, sizeof array, rows, sizeof rows, ticks);
}

/* A script of one step, 06h, whose list of ticks has this length. */
static uint64_t run_script(size_t ticks_len)
{
    static const uint8_t enable[] = {0x06};
    static const uint16_t lengths[] = {1}, ticks[] = {0, 0};
    uint8_t answers[1];
    uint16_t done[1];

    return yawlspar_script(record, sizeof record, array, sizeof array, rows, sizeof rows, WP_HIGH, enable, 1, lengths, 1,
                           ticks, ticks_len, output, 1, answers, 1, done, 1);
}

/* A check of a script of one step, 06h, whose image has this length. */
static uint64_t check_script(size_t image_len)
{
    static const uint8_t enable[] = {0x06};
    static const uint16_t lengths[] = {1}, ticks[] = {0};
    static uint8_t image[sizeof array];
    uint8_t answers[1];
    uint16_t done[1];

    return yawlspar_check(record, sizeof record, array, sizeof array, rows, sizeof rows, WP_HIGH, enable, 1, lengths, 1,
                          ticks, 1, output, 1, answers, 1, done, 1, image, image_len);
}

/* A search for a blank page from this one on, in a map of this length. */
static uint64_t next_blank(size_t map_len, uint64_t page)
{
    static const uint8_t map[YAWLSPAR_MAP_BYTES(BLOCKS)];

    return yawlspar_map_next(BLOCKS, map, map_len, page);
}

/* ---- The numbers ---- */

static void show(uint64_t expected, const char *what, uint64_t result)
{
    uint64_t number = YAWLSPAR_NUMBER(result);

    printf("%2u  %-41s %s\n", (unsigned)number, what, words_of(number));
    if (number != expected) {
        printf("it should be %u\n", (unsigned)expected);
        exit(1);
    }
}

/* A wrong call is answered 1 to 7, or 36 to 38. The part has not seen it, and no byte is changed. */
static void show_refusals(void)
{
    static const uint8_t enable[] = {0x06};

    show(YAWLSPAR_EXECUTED, "06h", transact(sizeof record, sizeof rows, enable, 1, 1));
    show(YAWLSPAR_BAD_SIZE, "power-up of 5 blocks", power_up(5));
    show(YAWLSPAR_BAD_ROWS, "06h with 1,000 bytes of rows", transact(sizeof record, 1000, enable, 1, 1));
    show(YAWLSPAR_BAD_INPUT, "no byte", transact(sizeof record, sizeof rows, enable, 0, 0));
    show(YAWLSPAR_BAD_OUTPUT, "06h with an output of 2 bytes", transact(sizeof record, sizeof rows, enable, 1, 2));
    show(YAWLSPAR_BAD_RECORD, "06h with a byte of the record missing", transact(sizeof record - 1, sizeof rows, enable, 1, 1));
    show(YAWLSPAR_BAD_TICKS, "4,097 ticks", wait(4097));
    show(YAWLSPAR_BAD_LISTS, "a script with a tick count too many", run_script(2));
}

/* What is sent, one transaction after the other, to a part that was just powered up; the last one shows the number. The
 * first byte of each is its length. */
static const struct {
    enum yawlspar_number number;
    const char *what;
    uint8_t sent[4][8];
} ways[] = {
    {YAWLSPAR_UNKNOWN, "5Ah, which reads SFDP", {{5, 0x5A}}},
    {YAWLSPAR_ASLEEP, "B9h, then 05h", {{1, 0xB9}, {2, 0x05}}},
    {YAWLSPAR_BUSY, "a sector erase, then 03h", {{1, 0x06}, {4, 0xD7}, {5, 0x03}}},
    {YAWLSPAR_SUSPENDED, "a sector erase, 75h, then D7h", {{1, 0x06}, {4, 0xD7}, {1, 0x75}, {4, 0xD7, 0x00, 0x10, 0x00}}},
    {YAWLSPAR_WRONG_LENGTH, "06h sent as two bytes", {{2, 0x06}}},
    {YAWLSPAR_OUT_OF_TURN, "66h, 05h, then 99h", {{1, 0x66}, {2, 0x05}, {1, 0x99}}},
    {YAWLSPAR_NOT_ENABLED, "02h without 06h", {{5, 0x02}}},
    {YAWLSPAR_NO_SUCH_ROW, "06h, then 64h at 000100h", {{1, 0x06}, {4, 0x64, 0x00, 0x01, 0x00}}},
};

static void show_ways(void)
{
    size_t i, k;

    for (i = 0; i < sizeof ways / sizeof ways[0]; i++) {
        uint64_t result = power_up(BLOCKS);

        for (k = 0; k < 4 && ways[i].sent[k][0] != 0; k++)
            result = transact(sizeof record, sizeof rows, ways[i].sent[k] + 1, ways[i].sent[k][0], ways[i].sent[k][0]);
        show(ways[i].number, ways[i].what, result);
    }
}

/* All blocks are protected once the status register is written, which takes a tick. */
static void show_protected(void)
{
    static const uint8_t enable[] = {0x06}, protect[] = {0x01, 0x1C}, erase[] = {0xD7, 0x00, 0x00, 0x00};

    power_up(BLOCKS);
    transact(sizeof record, sizeof rows, enable, 1, 1);
    transact(sizeof record, sizeof rows, protect, sizeof protect, sizeof protect);
    wait(1);
    transact(sizeof record, sizeof rows, enable, 1, 1);
    show(YAWLSPAR_PROTECTED, "D7h in a protected block", transact(sizeof record, sizeof rows, erase, 4, 4));
}

int main(void)
{
    if (!YAWLSPAR_MATCHES()) {
        printf("the header is of version %u, the archive of %u\n", (unsigned)YAWLSPAR_VERSION, (unsigned)yawlspar_version());
        return 1;
    }
    memset(array, 0xFF, sizeof array);
    memset(rows, 0xFF, sizeof rows);
    power_up(BLOCKS);
    show_refusals();
    show_ways();
    show_protected();
    show(YAWLSPAR_BAD_MAP, "a map with a byte missing", next_blank(YAWLSPAR_MAP_BYTES(BLOCKS) - 1, 0));
    show(YAWLSPAR_BAD_PAGE, "page 1,024 of a part of 1,024 pages", next_blank(YAWLSPAR_MAP_BYTES(BLOCKS), 1024));
    show(YAWLSPAR_BAD_IMAGE, "a check with a byte of the image missing", check_script(sizeof array - 1));
    return 0;
}
