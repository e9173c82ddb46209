/*
 * A small polling driver, as firmware has it, run on the model of the part in place of the part.
 *
 * The driver is everything between "The driver" and "What the firmware does with it". It knows the part by
 * spi_transfer and delay alone. Those two are the board, and here the board is the model. What this program
 * prints is in driver.out; README.md says what each line shows.
 */
#include <stdint.h>
#include <stdio.h>
#include <stdlib.h>
#include <string.h>

#include "yawlspar.h"

/* ---- The board: an 8 Mbit part and its bus, WP# tied high ---- */

#define BLOCKS 16u
#define BLOCK_BYTES 65536u
#define WP_HIGH 1u

static uint8_t record[YAWLSPAR_RECORD_BYTES];
static uint8_t array[BLOCKS * BLOCK_BYTES];
static uint8_t rows[1024];

/* The model refuses a call only where this program is wrong. */
static void must_not_refuse(uint64_t number)
{
    if (number >= YAWLSPAR_BAD_SIZE && number <= YAWLSPAR_BAD_TICKS) {
        printf("the model refused a call: %u\n", (unsigned)number);
        exit(1);
    }
}

static void power_up(void)
{
    memset(array, 0x00, sizeof array);
    memset(rows, 0xFF, sizeof rows);
    must_not_refuse(yawlspar_power_up(record, sizeof record, BLOCKS, 0x9D, 0x60, 0x14, 0x13, 0x00, 0x00, 0x00));
}

/* Clocks out `length` bytes and, in the same clocks, as many in. A part that ignores a transaction does so
 * silently. The model can tell, and that is what it is for. */
static void spi_transfer(const uint8_t *out, uint8_t *in, size_t length)
{
    uint64_t number = YAWLSPAR_NUMBER(yawlspar_transact(record, sizeof record, array, sizeof array, rows, sizeof rows,
                                                        WP_HIGH, out, length, in, length));

    must_not_refuse(number);
    if (number != YAWLSPAR_EXECUTED)
        printf("  the part ignored %02Xh: %u\n", out[0], (unsigned)number);
}

/* Lets ticks pass. Gives how many of them the part worked in. */
static unsigned delay(unsigned ticks)
{
    uint64_t result = yawlspar_tick(record, sizeof record, array, sizeof array, rows, sizeof rows, ticks);

    must_not_refuse(YAWLSPAR_NUMBER(result));
    return (unsigned)YAWLSPAR_TICKS(result);
}

/* ---- The driver ---- */

enum command {
    WRITE_STATUS = 0x01,
    PAGE_PROGRAM = 0x02,
    READ = 0x03,
    READ_STATUS = 0x05,
    WRITE_ENABLE = 0x06,
    READ_FUNCTION = 0x48,
    RESET_ENABLE = 0x66,
    SUSPEND = 0x75,
    RESUME = 0x7A,
    READ_EXTENDED = 0x81,
    CLEAR_ERRORS = 0x82,
    READ_MAKER_DEVICE = 0x90,
    RESET = 0x99,
    READ_ID = 0x9F,
    SECTOR_ERASE = 0xD7,
    BLOCK_ERASE = 0xD8
};

#define WIP 0x01u
#define E_ERR 0x08u
#define P_ERR 0x04u
#define PROT_E 0x02u
#define PAGE_BYTES 256u
#define POLL_TICKS 4u

/* What waiting for the part took. */
struct waited {
    unsigned polls, ticks;
};

static void send_command(enum command command)
{
    uint8_t out[] = {(uint8_t)command}, in[sizeof out];

    spi_transfer(out, in, sizeof out);
}

static void put_address(uint8_t *out, enum command command, uint32_t address)
{
    out[0] = (uint8_t)command;
    out[1] = (uint8_t)(address >> 16);
    out[2] = (uint8_t)(address >> 8);
    out[3] = (uint8_t)address;
}

static uint8_t read_register(enum command command)
{
    uint8_t out[2] = {(uint8_t)command}, in[sizeof out];

    spi_transfer(out, in, sizeof out);
    return in[1];
}

static struct waited wait_ready(void)
{
    struct waited waited = {1, 0};

    while ((read_register(READ_STATUS) & WIP) != 0) {
        waited.ticks += delay(POLL_TICKS);
        waited.polls++;
    }
    return waited;
}

static void write_status(uint8_t status)
{
    uint8_t out[] = {WRITE_STATUS, status}, in[sizeof out];

    send_command(WRITE_ENABLE);
    spi_transfer(out, in, sizeof out);
    wait_ready();
}

static void read_id(uint8_t id[3])
{
    uint8_t out[4] = {READ_ID}, in[sizeof out];

    spi_transfer(out, in, sizeof out);
    memcpy(id, in + 1, 3);
}

/* At address 00h the maker comes first, at 01h the device. */
static void read_maker_device(uint8_t address, uint8_t *maker, uint8_t *device)
{
    uint8_t out[6], in[sizeof out];

    memset(out, 0, sizeof out);
    put_address(out, READ_MAKER_DEVICE, address);
    spi_transfer(out, in, sizeof out);
    *maker = in[address == 0 ? 4 : 5];
    *device = in[address == 0 ? 5 : 4];
}

/* Up to a page. */
static void read_bytes(uint32_t address, uint8_t *bytes, size_t length)
{
    uint8_t out[4 + PAGE_BYTES], in[sizeof out];

    memset(out, 0, sizeof out);
    put_address(out, READ, address);
    spi_transfer(out, in, 4 + length);
    memcpy(bytes, in + 4, length);
}

static uint8_t read_byte(uint32_t address)
{
    uint8_t byte;

    read_bytes(address, &byte, 1);
    return byte;
}

/* Starts an erase and does not wait for it. */
static void start_erase(enum command command, uint32_t address)
{
    uint8_t out[4], in[sizeof out];

    send_command(WRITE_ENABLE);
    put_address(out, command, address);
    spi_transfer(out, in, sizeof out);
}

/* Up to the page's end: past it the part would go back to the page's start. */
static void start_program(uint32_t address, const uint8_t *bytes, size_t length)
{
    uint8_t out[4 + PAGE_BYTES], in[sizeof out];

    put_address(out, PAGE_PROGRAM, address);
    memcpy(out + 4, bytes, length);
    spi_transfer(out, in, 4 + length);
}

static size_t left_in_page(uint32_t address, size_t length)
{
    size_t left = PAGE_BYTES - address % PAGE_BYTES;

    return length < left ? length : left;
}

/* Any number of bytes, a page at a time. Gives the number of programs. */
static unsigned write_bytes(uint32_t address, const uint8_t *bytes, size_t length, struct waited *waited)
{
    unsigned programs = 0;

    while (length > 0) {
        size_t now = left_in_page(address, length);
        struct waited one;

        send_command(WRITE_ENABLE);
        start_program(address, bytes, now);
        one = wait_ready();
        waited->polls += one.polls;
        waited->ticks += one.ticks;
        programs++;
        address += (uint32_t)now;
        bytes += now;
        length -= now;
    }
    return programs;
}

/* How many of the bytes the part holds. */
static unsigned verify(uint32_t address, const uint8_t *bytes, size_t length)
{
    uint8_t page[PAGE_BYTES];
    unsigned good = 0;

    while (length > 0) {
        size_t now = left_in_page(address, length), i;

        read_bytes(address, page, now);
        for (i = 0; i < now; i++)
            good += page[i] == bytes[i];
        address += (uint32_t)now;
        bytes += now;
        length -= now;
    }
    return good;
}

static void software_reset(void)
{
    send_command(RESET_ENABLE);
    send_command(RESET);
}

/* Why writes did nothing: the part itself keeps in its extended read register what it refused. */
static const char *refused_writes(uint8_t extended)
{
    if ((extended & PROT_E) == 0)
        return "no write was refused";
    if ((extended & E_ERR) != 0 && (extended & P_ERR) != 0)
        return "an erase and a program were refused, protected";
    return (extended & E_ERR) != 0 ? "an erase was refused, protected" : "a program was refused, protected";
}

/* ---- What the firmware does with it ---- */

static unsigned erased_pages(uint32_t address, unsigned pages)
{
    uint8_t page[PAGE_BYTES], erased[PAGE_BYTES];
    unsigned count = 0;

    memset(erased, 0xFF, sizeof erased);
    for (; pages > 0; pages--) {
        read_bytes(address, page, sizeof page);
        count += memcmp(page, erased, sizeof page) == 0;
        address += PAGE_BYTES;
    }
    return count;
}

static void identify(void)
{
    uint8_t id[3], maker, device;

    read_id(id);
    printf("9Fh: maker %02Xh, type %02Xh, capacity %02Xh\n", id[0], id[1], id[2]);
    read_maker_device(0x00, &maker, &device);
    printf("90h at 00h: maker %02Xh, device %02Xh\n", maker, device);
    read_maker_device(0x01, &maker, &device);
    printf("90h at 01h: maker %02Xh, device %02Xh\n", maker, device);
}

/* Waits for the erase of a sector that was started. */
static void finish_sector(uint32_t address)
{
    struct waited waited = wait_ready();

    printf("sector %06Xh: %u ticks, %u polls, %u of 16 pages erased\n", (unsigned)address, waited.ticks, waited.polls,
           erased_pages(address, 16));
}

static void erase_sector(void)
{
    start_erase(SECTOR_ERASE, 0x002000);
    printf("sector 002000h: erase started, status %02Xh\n", read_register(READ_STATUS));
    finish_sector(0x002000);
    printf("around it: 001FFFh holds %02Xh, 003000h holds %02Xh\n", read_byte(0x001FFF), read_byte(0x003000));
}

static void make_table(uint8_t *table, size_t length)
{
    size_t i;

    for (i = 0; i < length; i++)
        table[i] = (uint8_t)(7 * i + 3);
}

static void write_table(void)
{
    uint8_t table[300];
    struct waited waited = {0, 0};
    unsigned programs;

    make_table(table, sizeof table);
    programs = write_bytes(0x0020F0, table, sizeof table, &waited);
    printf("300 bytes at 0020F0h: %u programs, %u ticks, %u polls\n", programs, waited.ticks, waited.polls);
    printf("verified: %u of 300 bytes\n", verify(0x0020F0, table, sizeof table));
}

static void forget_write_enable(void)
{
    static const uint8_t byte[] = {0x00};

    printf("a program without write enable:\n");
    start_program(0x002F00, byte, sizeof byte);
    printf("002F00h holds %02Xh\n", read_byte(0x002F00));
}

static void read_during_erase(void)
{
    uint8_t bytes[4];
    struct waited waited;
    unsigned worked;

    start_erase(SECTOR_ERASE, 0x003000);
    delay(5);
    send_command(SUSPEND);
    printf("sector 003000h: suspended after 5 ticks, status %02Xh, function %02Xh\n", read_register(READ_STATUS),
           read_register(READ_FUNCTION));
    read_bytes(0x0020F0, bytes, sizeof bytes);
    printf("0020F0h holds %02Xh %02Xh %02Xh %02Xh\n", bytes[0], bytes[1], bytes[2], bytes[3]);
    worked = delay(100);
    printf("ticks while suspended: %u of 100 did work, %u of 16 pages erased\n", worked, erased_pages(0x003000, 16));
    send_command(RESUME);
    printf("resumed: status %02Xh, function %02Xh\n", read_register(READ_STATUS), read_register(READ_FUNCTION));
    waited = wait_ready();
    printf("sector 003000h: %u more ticks, %u polls, %u of 16 pages erased\n", waited.ticks, waited.polls,
           erased_pages(0x003000, 16));
}

static void reset_during_erase(void)
{
    unsigned worked;

    start_erase(BLOCK_ERASE, 0x010000);
    worked = delay(100);
    printf("block 010000h: %u ticks, status %02Xh\n", worked, read_register(READ_STATUS));
    software_reset();
    printf("reset: status %02Xh, %u of 256 pages erased\n", read_register(READ_STATUS), erased_pages(0x010000, 256));
}

/* Says which blocks the part's status protects. The model is asked for them: a board's driver has the table of its
 * data sheet. */
static void print_protected(void)
{
    uint8_t status = read_register(READ_STATUS);
    uint64_t code = (status >> 2) & 15u;
    unsigned first = (unsigned)yawlspar_protected_first(code, BLOCKS);
    unsigned count = (unsigned)yawlspar_protected_count(code, BLOCKS);

    if (count == 0)
        printf("status %02Xh protects no block\n", status);
    else
        printf("status %02Xh protects %u of %u blocks, from block %u on: %06Xh to %06Xh\n", status, count, BLOCKS, first,
               first * BLOCK_BYTES, (first + count) * BLOCK_BYTES - 1);
}

static void print_refused(void)
{
    uint8_t extended = read_register(READ_EXTENDED);

    printf("81h reads %02Xh: %s\n", extended, refused_writes(extended));
}

static void protect_blocks(void)
{
    static const uint8_t byte[] = {0x00};

    write_status(0x08);
    print_protected();
    printf("an erase in block 14:\n");
    start_erase(SECTOR_ERASE, 0x0E0000);
    printf("0E0000h holds %02Xh, status %02Xh\n", read_byte(0x0E0000), read_register(READ_STATUS));
    print_refused();
    printf("a program there:\n");
    start_program(0x0E0000, byte, sizeof byte);
    print_refused();
    send_command(CLEAR_ERRORS);
    print_refused();
    start_erase(SECTOR_ERASE, 0x0DF000);
    finish_sector(0x0DF000);
    write_status(0x30);
    print_protected();
    write_status(0x00);
    print_protected();
    start_erase(SECTOR_ERASE, 0x0E0000);
    finish_sector(0x0E0000);
}

int main(void)
{
    power_up();
    identify();
    erase_sector();
    write_table();
    forget_write_enable();
    read_during_erase();
    reset_during_erase();
    protect_blocks();
    return 0;
}
