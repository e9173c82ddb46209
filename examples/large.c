/*
 * A driver for the 32 Mbyte part, run on the model of the part in place of the part.
 *
 * Three address bytes reach half of it. The driver goes beyond in three ways, one after the other: with four address
 * bytes, by B7h and 29h; with three and the bank bit, by C5h; and with the codes that always take four. The board
 * below is that of driver.c, with a larger part. What this program prints is in large.out; README.md says what each
 * line shows.
 */
#include <stdint.h>
#include <stdio.h>
#include <stdlib.h>
#include <string.h>

#include "yawlspar.h"

/* ---- The board: a 256 Mbit part and its bus, WP# tied high ---- */

#define BLOCKS 512u
#define BLOCK_BYTES 65536u
#define WP_HIGH 1u

static uint8_t record[YAWLSPAR_RECORD_BYTES];
static uint8_t array[BLOCKS * BLOCK_BYTES];
static uint8_t rows[1024];

/* The model refuses a call only where this program is wrong. */
static void must_not_refuse(uint64_t number)
{
    if (number >= YAWLSPAR_BAD_SIZE && number <= YAWLSPAR_BAD_TICKS) {
        printf("the model refused a call: %u\n", (unsigned)number);
        exit(1);
    }
}

/* TBS, bit 1 of the function register, says which end of the array is protected first. */
static void power_up(uint8_t function)
{
    memset(array, 0x00, sizeof array);
    memset(rows, 0xFF, sizeof rows);
    must_not_refuse(yawlspar_power_up(record, sizeof record, BLOCKS, 0x9D, 0x60, 0x19, 0x18, 0x00, function, 0x00));
}

/* Clocks out `length` bytes and, in the same clocks, as many in. A board's part would ignore silently. */
static void spi_transfer(const uint8_t *out, uint8_t *in, size_t length)
{
    uint64_t number = YAWLSPAR_NUMBER(yawlspar_transact(record, sizeof record, array, sizeof array, rows, sizeof rows,
                                                        WP_HIGH, out, length, in, length));

    must_not_refuse(number);
    if (number != YAWLSPAR_EXECUTED)
        printf("  the part ignored %02Xh: %u\n", out[0], (unsigned)number);
}

/* Lets ticks pass. Gives how many of them the part worked in. */
static unsigned delay(unsigned ticks)
{
    uint64_t result = yawlspar_tick(record, sizeof record, array, sizeof array, rows, sizeof rows, ticks);

    must_not_refuse(YAWLSPAR_NUMBER(result));
    return (unsigned)YAWLSPAR_TICKS(result);
}

/* ---- The driver ---- */

enum command {
    WRITE_STATUS = 0x01,
    PAGE_PROGRAM = 0x02,
    READ = 0x03,
    READ_STATUS = 0x05,
    WRITE_ENABLE = 0x06,
    LEAVE_FOUR_BYTES = 0x29,
    READ_FUNCTION = 0x48,
    RESET_ENABLE = 0x66,
    READ_EXTENDED = 0x81,
    RESET = 0x99,
    READ_ID = 0x9F,
    ENTER_FOUR_BYTES = 0xB7,
    WRITE_BANK = 0xC5,
    CHIP_ERASE = 0xC7,
    READ_BANK = 0xC8,
    SECTOR_ERASE = 0xD7
};

#define WIP 0x01u
#define PAGE_BYTES 256u
#define SECTOR_BYTES 4096u
#define BANK_BYTES 0x1000000u
#define HEADER_MOST 5u
#define POLL_TICKS 4u

/* How the driver sends addresses. A part takes three bytes after power-up and reset. */
enum addressing { THREE_BYTES, FOUR_BYTES, FOUR_BYTE_CODES };

static enum addressing addressing;
static uint8_t bank; /* as it was written last */

/* What waiting for the part took. */
struct waited {
    unsigned polls, ticks;
};

static void send_command(enum command command)
{
    uint8_t out[] = {(uint8_t)command}, in[sizeof out];

    spi_transfer(out, in, sizeof out);
}

static uint8_t read_register(enum command command)
{
    uint8_t out[2] = {(uint8_t)command}, in[sizeof out];

    spi_transfer(out, in, sizeof out);
    return in[1];
}

static void write_register(enum command command, uint8_t byte)
{
    uint8_t out[] = {(uint8_t)command, byte}, in[sizeof out];

    spi_transfer(out, in, sizeof out);
}

/* The code that does the same and always takes four address bytes. */
static uint8_t four_byte_code(enum command command)
{
    switch (command) {
    case READ:
        return 0x13;
    case PAGE_PROGRAM:
        return 0x12;
    default: /* SECTOR_ERASE */
        return 0x21;
    }
}

/* With three bytes the bank bit has to be that of the address. It needs no write enable and takes no time. */
static void select_bank(uint32_t address)
{
    uint8_t needed = address < BANK_BYTES ? 0 : 1;

    if (addressing == THREE_BYTES && bank != needed) {
        write_register(WRITE_BANK, needed);
        bank = needed;
    }
}

/* Puts down the code and the address. Gives their length: what comes behind them moves with it. */
static size_t put_address(uint8_t *out, enum command command, uint32_t address)
{
    size_t length = 0;

    out[length++] = addressing == FOUR_BYTE_CODES ? four_byte_code(command) : (uint8_t)command;
    if (addressing != THREE_BYTES)
        out[length++] = (uint8_t)(address >> 24);
    out[length++] = (uint8_t)(address >> 16);
    out[length++] = (uint8_t)(address >> 8);
    out[length++] = (uint8_t)address;
    return length;
}

static struct waited wait_ready(void)
{
    struct waited waited = {1, 0};

    while ((read_register(READ_STATUS) & WIP) != 0) {
        waited.ticks += delay(POLL_TICKS);
        waited.polls++;
    }
    return waited;
}

/* Up to 300 bytes, over pages and banks as they come: a read runs on. */
static void read_bytes(uint32_t address, uint8_t *bytes, size_t length)
{
    uint8_t out[HEADER_MOST + 300], in[sizeof out];
    size_t from;

    select_bank(address);
    memset(out, 0, sizeof out);
    from = put_address(out, READ, address);
    spi_transfer(out, in, from + length);
    memcpy(bytes, in + from, length);
}

static const uint8_t no_data[1];

/* Starts a program of up to a page's end, or an erase, which has no data, and does not wait for it. */
static void start_write(enum command command, uint32_t address, const uint8_t *data, size_t length)
{
    uint8_t out[HEADER_MOST + PAGE_BYTES], in[sizeof out];
    size_t from;

    select_bank(address);
    send_command(WRITE_ENABLE);
    from = put_address(out, command, address);
    memcpy(out + from, data, length);
    spi_transfer(out, in, from + length);
}

/* Any number of bytes, a page at a time. Gives the number of programs. */
static unsigned write_bytes(uint32_t address, const uint8_t *bytes, size_t length, struct waited *waited)
{
    unsigned programs = 0;

    while (length > 0) {
        size_t left = PAGE_BYTES - address % PAGE_BYTES, now = length < left ? length : left;
        struct waited one;

        start_write(PAGE_PROGRAM, address, bytes, now);
        one = wait_ready();
        waited->polls += one.polls;
        waited->ticks += one.ticks;
        programs++;
        address += (uint32_t)now;
        bytes += now;
        length -= now;
    }
    return programs;
}

static void write_status(uint8_t status)
{
    send_command(WRITE_ENABLE);
    write_register(WRITE_STATUS, status);
    wait_ready();
}

/* ---- What the firmware does with it ---- */

static void show_bank(const char *after)
{
    printf("%s: C8h reads %02Xh\n", after, read_register(READ_BANK));
}

static void show_bytes(uint32_t address)
{
    uint8_t bytes[4];

    read_bytes(address, bytes, sizeof bytes);
    printf("%08Xh holds %02Xh %02Xh %02Xh %02Xh\n", (unsigned)address, bytes[0], bytes[1], bytes[2], bytes[3]);
}

static unsigned erased_pages(uint32_t address, unsigned pages)
{
    uint8_t page[PAGE_BYTES], erased[PAGE_BYTES];
    unsigned count = 0;

    memset(erased, 0xFF, sizeof erased);
    for (; pages > 0; pages--) {
        read_bytes(address, page, sizeof page);
        count += memcmp(page, erased, sizeof page) == 0;
        address += PAGE_BYTES;
    }
    return count;
}

static void identify(void)
{
    uint8_t out[4] = {READ_ID}, in[sizeof out];

    spi_transfer(out, in, sizeof out);
    printf("9Fh: maker %02Xh, type %02Xh, capacity %02Xh\n", in[1], in[2], in[3]);
    printf("%u bytes, of which three address bytes reach %u\n", 1u << in[3], BANK_BYTES);
}

static void erase_sector(uint32_t address)
{
    struct waited waited;

    start_write(SECTOR_ERASE, address, no_data, 0);
    waited = wait_ready();
    printf("sector %08Xh: %u ticks, %u polls, %u of 16 pages erased\n", (unsigned)address, waited.ticks, waited.polls,
           erased_pages(address, SECTOR_BYTES / PAGE_BYTES));
}

/* A table of 300 bytes on both sides of 16 Mbyte. */
static void write_table(uint8_t first)
{
    uint8_t table[300], read[sizeof table];
    struct waited waited = {0, 0};
    unsigned programs, good = 0;
    size_t i;

    for (i = 0; i < sizeof table; i++)
        table[i] = (uint8_t)(7 * i + first);
    programs = write_bytes(0x00FFFF80, table, sizeof table, &waited);
    printf("300 bytes at 00FFFF80h: %u programs, %u ticks, %u polls\n", programs, waited.ticks, waited.polls);
    read_bytes(0x00FFFF80, read, sizeof read);
    for (i = 0; i < sizeof table; i++)
        good += read[i] == table[i];
    printf("verified in one read: %u of 300 bytes\n", good);
    show_bytes(0x00FFFFFE);
}

/* Erases the sectors on both sides of 16 Mbyte, and writes the table. */
static void over_the_border(uint8_t first)
{
    uint8_t before, after;

    erase_sector(0x00FFF000);
    erase_sector(0x01000000);
    read_bytes(0x00FFEFFF, &before, 1);
    read_bytes(0x01001000, &after, 1);
    printf("around them: 00FFEFFFh holds %02Xh, 01001000h holds %02Xh\n", before, after);
    write_table(first);
}

/* Three address bytes, where the part takes four. */
static void forget_the_mode(void)
{
    uint8_t erase[] = {SECTOR_ERASE, 0xFF, 0xF0, 0x00}, read[8] = {READ, 0xFF, 0xFF, 0xFE}, in[sizeof read];

    printf("an erase with three address bytes:\n");
    send_command(WRITE_ENABLE);
    spi_transfer(erase, in, sizeof erase);
    spi_transfer(read, in, sizeof read);
    printf("a read with three gets %02Xh %02Xh %02Xh %02Xh\n", in[4], in[5], in[6], in[7]);
}

static void with_four_bytes(void)
{
    send_command(ENTER_FOUR_BYTES);
    addressing = FOUR_BYTES;
    show_bank("B7h");
    over_the_border(0x03);
    forget_the_mode();
    send_command(LEAVE_FOUR_BYTES);
    addressing = THREE_BYTES;
    show_bank("29h");
}

static void with_the_bank_bit(void)
{
    show_bytes(0x00FFFFFE); /* bank 0, and on into bank 1 */
    show_bank("a read over the border");
    over_the_border(0x04);
    show_bytes(0x01000000);
    show_bank("C5h");
}

/* These codes go by neither bit of the register. */
static void with_four_byte_codes(void)
{
    static const uint8_t last[] = {0x12, 0x34};
    struct waited waited = {0, 0};

    addressing = FOUR_BYTE_CODES;
    over_the_border(0x05);
    erase_sector(0x01FFF000);
    write_bytes(0x01FFFFFE, last, sizeof last, &waited);
    show_bytes(0x01FFFFFE); /* from the top on to address 0 */
    show_bank("13h, 12h and 21h");
}

/* A part that was reset is in bank 0 and takes three bytes. A driver that does not know it sends four. */
static void reset_the_part(void)
{
    addressing = FOUR_BYTES;
    send_command(ENTER_FOUR_BYTES);
    show_bank("B7h again");
    send_command(RESET_ENABLE);
    send_command(RESET);
    show_bank("a reset");
    printf("an erase with four address bytes:\n");
    start_write(SECTOR_ERASE, 0x01000000, no_data, 0);
    addressing = THREE_BYTES;
    bank = 0;
}

/* Says which blocks the part's registers protect. The model is asked for them, with TBS in bit 4 of the code: a board's
 * driver has the table of its data sheet. */
static void print_protected(void)
{
    uint8_t status = read_register(READ_STATUS), function = read_register(READ_FUNCTION);
    uint64_t code = ((status >> 2) & 15u) | (uint64_t)(function & 2u) << 3;
    unsigned first = (unsigned)yawlspar_protected_first(code, BLOCKS);
    unsigned count = (unsigned)yawlspar_protected_count(code, BLOCKS);

    printf("status %02Xh, function %02Xh: %u of %u blocks, %08Xh to %08Xh\n", status, function, count, BLOCKS,
           first * BLOCK_BYTES, (first + count) * BLOCK_BYTES - 1);
}

/* Four blocks, at the end that TBS says. */
static void protect_blocks(uint8_t function, uint32_t inside)
{
    power_up(function);
    addressing = FOUR_BYTE_CODES;
    write_status(0x0C);
    print_protected();
    start_write(SECTOR_ERASE, inside, no_data, 0);
    printf("81h reads %02Xh\n", read_register(READ_EXTENDED));
    erase_sector(inside ^ BANK_BYTES);
}

static void erase_chip(void)
{
    unsigned ticks;

    write_status(0x00);
    send_command(WRITE_ENABLE);
    send_command(CHIP_ERASE);
    ticks = delay(BLOCKS * BLOCK_BYTES / PAGE_BYTES);
    printf("chip erase: %u ticks, status %02Xh, %u of 131072 pages erased\n", ticks, read_register(READ_STATUS),
           erased_pages(0x00000000, BLOCKS * BLOCK_BYTES / PAGE_BYTES));
}

int main(void)
{
    power_up(0x00);
    identify();
    show_bank("power-up");
    with_four_bytes();
    with_the_bank_bit();
    with_four_byte_codes();
    reset_the_part();
    protect_blocks(0x00, 0x01FFF000);
    protect_blocks(0x02, 0x00000000);
    erase_chip();
    return 0;
}
