/*
 * A part that is kept in a file from one run to the next, as a board keeps it from one boot to the next.
 *
 *   keep FILE          load the part from FILE, or make a blank one if there is no FILE; cut its power, boot, and save it
 *   keep FILE on       the same, but the power stayed on: the part goes on where it was
 *
 * The firmware counts its boots in the first sector, and erases sector 1 in the background. When the program ends, the erase
 * is under way. What three runs print is in keep.out; README.md says what each line shows.
 */
#include <errno.h>
#include <stdbool.h>
#include <stdint.h>
#include <stdio.h>
#include <stdlib.h>
#include <string.h>

#include "yawlspar.h"

/* ---- The part in a file: a line with the version and the size, then array, rows and record ---- */

#define BLOCKS 4u
#define WP_HIGH 1u

static uint8_t record[YAWLSPAR_RECORD_BYTES], array[BLOCKS * 65536u], rows[1024];

static void stop(const char *file, const char *why)
{
    fprintf(stderr, "keep: %s: %s\n", file, why);
    exit(1);
}

/* A file of another version is not read: the bytes of a record are those of one version. A tick call of no ticks changes
 * nothing, and answers 0 only where the bytes hold a sound record of a part of that size. */
static void load(FILE *from, const char *file)
{
    char expected[64], line[64] = "";

    snprintf(expected, sizeof expected, "yawlspar %u, %u blocks\n", (unsigned)YAWLSPAR_VERSION, BLOCKS);
    if (fgets(line, sizeof line, from) == NULL || strcmp(line, expected) != 0)
        stop(file, "no part of this version and size");
    if (fread(array, 1, sizeof array, from) != sizeof array || fread(rows, 1, sizeof rows, from) != sizeof rows ||
        fread(record, 1, sizeof record, from) != sizeof record || fgetc(from) != EOF)
        stop(file, "too short or too long");
    if (YAWLSPAR_NUMBER(yawlspar_tick(record, sizeof record, array, sizeof array, rows, sizeof rows, 0)) != YAWLSPAR_EXECUTED)
        stop(file, "its record is not sound");
}

/* The new file takes the old one's name only when it is whole. */
static void save(const char *file)
{
    char fresh[4096];
    FILE *to;
    bool good;

    if (snprintf(fresh, sizeof fresh, "%s.new", file) >= (int)sizeof fresh)
        stop(file, "its name is too long");
    to = fopen(fresh, "wb");
    if (to == NULL)
        stop(fresh, "it cannot be written");
    good = fprintf(to, "yawlspar %u, %u blocks\n", (unsigned)YAWLSPAR_VERSION, BLOCKS) > 0;
    good = good && fwrite(array, 1, sizeof array, to) == sizeof array;
    good = good && fwrite(rows, 1, sizeof rows, to) == sizeof rows;
    good = good && fwrite(record, 1, sizeof record, to) == sizeof record;
    if (fclose(to) != 0 || !good || rename(fresh, file) != 0) {
        remove(fresh);
        stop(file, "it cannot be written");
    }
}

/* ---- The board ---- */

static void must_not_refuse(uint64_t number)
{
    if (number >= YAWLSPAR_BAD_SIZE && number <= YAWLSPAR_BAD_TICKS) {
        printf("the model refused a call: %u\n", (unsigned)number);
        exit(1);
    }
}

/* Clocks out `length` bytes and, in the same clocks, as many in. Gives the model's number. */
static uint64_t transfer(const uint8_t *out, uint8_t *in, size_t length)
{
    uint64_t number = YAWLSPAR_NUMBER(yawlspar_transact(record, sizeof record, array, sizeof array, rows, sizeof rows,
                                                        WP_HIGH, out, length, in, length));

    must_not_refuse(number);
    return number;
}

static void spi_transfer(const uint8_t *out, uint8_t *in, size_t length)
{
    uint64_t number = transfer(out, in, length);

    if (number != YAWLSPAR_EXECUTED)
        printf("  the part ignored %02Xh: %u\n", out[0], (unsigned)number);
}

static unsigned delay(unsigned ticks)
{
    uint64_t result = yawlspar_tick(record, sizeof record, array, sizeof array, rows, sizeof rows, ticks);

    must_not_refuse(YAWLSPAR_NUMBER(result));
    return (unsigned)YAWLSPAR_TICKS(result);
}

static void send_command(uint8_t command)
{
    uint8_t in;

    spi_transfer(&command, &in, 1);
}

/* A part that nobody has written to. */
static void make_blank(void)
{
    memset(array, 0xFF, sizeof array);
    memset(rows, 0xFF, sizeof rows);
    must_not_refuse(yawlspar_power_up(record, sizeof record, BLOCKS, 0x9D, 0x70, 0x12, 0x11, 0x00, 0x00, 0x00));
}

/* Power is lost and comes back. After ABh, 66h and 99h the record is that of a fresh power-up with the registers that the
 * part has stored: that is proved, whatever state it was in. A part that is awake and busy ignores ABh, which does not matter.
 * The operation that ran is lost, and what its ticks did stays. */
static void cut_power(void)
{
    static const uint8_t wake_arm_reset[] = {0xAB, 0x66, 0x99};
    uint8_t in;
    size_t i;

    for (i = 0; i < sizeof wake_arm_reset; i++)
        transfer(&wake_arm_reset[i], &in, 1);
}

/* ---- The firmware ---- */

#define BOOTS 0x000000u
#define SCRATCH 0x001000u
#define SECTOR_BYTES 4096u
#define WIP 0x01u

static void put_address(uint8_t *out, uint8_t command, uint32_t address)
{
    out[0] = command;
    out[1] = (uint8_t)(address >> 16);
    out[2] = (uint8_t)(address >> 8);
    out[3] = (uint8_t)address;
}

static uint8_t read_byte(uint32_t address)
{
    uint8_t out[5] = {0}, in[sizeof out];

    put_address(out, 0x03, address);
    spi_transfer(out, in, sizeof out);
    return in[4];
}

static uint8_t read_status(void)
{
    uint8_t out[2] = {0x05}, in[sizeof out];

    spi_transfer(out, in, sizeof out);
    return in[1];
}

static void program_byte(uint32_t address, uint8_t byte)
{
    uint8_t out[5], in[sizeof out];

    send_command(0x06);
    put_address(out, 0x02, address);
    out[4] = byte;
    spi_transfer(out, in, sizeof out);
    delay(1);
}

/* One byte of the sector for each boot: 00h where it was used. Where all of them are, the count stays. */
static uint32_t count_boot(void)
{
    uint32_t boots = 0;

    while (boots < SECTOR_BYTES && read_byte(BOOTS + boots) == 0x00)
        boots++;
    if (boots == SECTOR_BYTES)
        return boots;
    program_byte(BOOTS + boots, 0x00);
    return boots + 1;
}

static void start_erase(void)
{
    uint8_t out[4], in[sizeof out];

    send_command(0x06);
    put_address(out, 0xD7, SCRATCH);
    spi_transfer(out, in, sizeof out);
}

int main(int argc, char **argv)
{
    bool stayed_on = argc == 3 && strcmp(argv[2], "on") == 0;
    unsigned left = 0;
    uint8_t status;
    FILE *from;

    if (argc != 2 && !stayed_on) {
        fprintf(stderr, "usage: keep FILE [on]\n");
        return 2;
    }
    if (!YAWLSPAR_MATCHES())
        stop(argv[0], "the header is of one version and the archive of another");
    from = fopen(argv[1], "rb");
    if (from == NULL && errno != ENOENT)
        stop(argv[1], "it cannot be read");
    if (from == NULL) {
        printf("a blank part\n");
        make_blank();
    } else {
        load(from, argv[1]);
        fclose(from);
        status = read_status();
        if (!stayed_on)
            cut_power();
        printf("status %02Xh as saved, %02Xh now\n", status, read_status());
    }
    while ((read_status() & WIP) != 0)
        left += delay(1);
    if (left > 0)
        printf("the erase went on: %u ticks were left\n", left);
    printf("boot %u\n", (unsigned)count_boot());
    start_erase();
    printf("an erase of 16 ticks: %u done, saved\n", delay(5));
    save(argv[1]);
    return 0;
}
