/*
 * A logging driver, as firmware has it, run on the model of the part in place of the part.
 *
 * It erases the sector of an old log in the background. When a line comes it suspends the erase, programs the line
 * into a page of the new log, and resumes. The board below is that of driver.c. What this program prints is in
 * logger.out; README.md says what each line shows.
 */
#include <stdint.h>
#include <stdio.h>
#include <stdlib.h>
#include <string.h>

#include "yawlspar.h"

/* ---- The board: an 8 Mbit part and its bus, WP# tied high ---- */

#define BLOCKS 16u
#define BLOCK_BYTES 65536u
#define SECTOR_BYTES 4096u
#define WP_HIGH 1u
#define OLD_LOG 0x004000u
#define NEW_LOG 0x005000u

static uint8_t record[YAWLSPAR_RECORD_BYTES];
static uint8_t array[BLOCKS * BLOCK_BYTES];
static uint8_t rows[1024];

/* The model refuses a call only where this program is wrong. */
static void must_not_refuse(uint64_t number)
{
    if (number >= YAWLSPAR_BAD_SIZE && number <= YAWLSPAR_BAD_TICKS) {
        printf("the model refused a call: %u\n", (unsigned)number);
        exit(1);
    }
}

/* A part that is blank, but for the old log. */
static void power_up(void)
{
    memset(array, 0xFF, sizeof array);
    memset(array + OLD_LOG, 0x00, SECTOR_BYTES);
    memset(rows, 0xFF, sizeof rows);
    must_not_refuse(yawlspar_power_up(record, sizeof record, BLOCKS, 0x9D, 0x60, 0x14, 0x13, 0x00, 0x00, 0x00));
}

/* Clocks out `length` bytes and, in the same clocks, as many in. A board's part would ignore silently. */
static void spi_transfer(const uint8_t *out, uint8_t *in, size_t length)
{
    uint64_t number = YAWLSPAR_NUMBER(yawlspar_transact(record, sizeof record, array, sizeof array, rows, sizeof rows,
                                                        WP_HIGH, out, length, in, length));

    must_not_refuse(number);
    if (number != YAWLSPAR_EXECUTED)
        printf("  the part ignored %02Xh: %u\n", out[0], (unsigned)number);
}

/* Lets ticks pass. Gives how many of them the part worked in. */
static unsigned delay(unsigned ticks)
{
    uint64_t result = yawlspar_tick(record, sizeof record, array, sizeof array, rows, sizeof rows, ticks);

    must_not_refuse(YAWLSPAR_NUMBER(result));
    return (unsigned)YAWLSPAR_TICKS(result);
}

/* ---- The driver ---- */

enum command {
    PAGE_PROGRAM = 0x02,
    READ = 0x03,
    READ_STATUS = 0x05,
    WRITE_ENABLE = 0x06,
    READ_FUNCTION = 0x48,
    SUSPEND = 0x75,
    RESUME = 0x7A,
    READ_EXTENDED = 0x81,
    CLEAR_ERRORS = 0x82,
    SECTOR_ERASE = 0xD7
};

#define WIP 0x01u
#define PAGE_BYTES 256u
#define POLL_TICKS 4u

/* Where the next line goes. The lines of this program fit into one page. */
static uint32_t log_end = NEW_LOG;

static void send_command(enum command command)
{
    uint8_t out[] = {(uint8_t)command}, in[sizeof out];

    spi_transfer(out, in, sizeof out);
}

static void put_address(uint8_t *out, enum command command, uint32_t address)
{
    out[0] = (uint8_t)command;
    out[1] = (uint8_t)(address >> 16);
    out[2] = (uint8_t)(address >> 8);
    out[3] = (uint8_t)address;
}

static uint8_t read_register(enum command command)
{
    uint8_t out[2] = {(uint8_t)command}, in[sizeof out];

    spi_transfer(out, in, sizeof out);
    return in[1];
}

static void read_page(uint32_t address, uint8_t page[PAGE_BYTES])
{
    uint8_t out[4 + PAGE_BYTES], in[sizeof out];

    memset(out, 0, sizeof out);
    put_address(out, READ, address);
    spi_transfer(out, in, sizeof out);
    memcpy(page, in + 4, PAGE_BYTES);
}

/* Waits until nothing runs: the part is then idle, or suspended. Gives the ticks that it took. */
static unsigned wait_ready(void)
{
    unsigned ticks = 0;

    while ((read_register(READ_STATUS) & WIP) != 0)
        ticks += delay(POLL_TICKS);
    return ticks;
}

/* Starts a program of up to a page, or an erase, which has no data, and does not wait for it. */
static void start_write(enum command command, uint32_t address, const char *data)
{
    uint8_t out[4 + PAGE_BYTES], in[sizeof out];
    size_t length = strlen(data);

    send_command(WRITE_ENABLE);
    put_address(out, command, address);
    memcpy(out + 4, data, length);
    spi_transfer(out, in, 4 + length);
}

/* Begins to append a line to the new log, on a part that is idle or suspended from an erase. */
static void start_line(const char *line)
{
    start_write(PAGE_PROGRAM, log_end, line);
    log_end += (uint32_t)strlen(line);
}

/* ---- What the firmware does with it ---- */

static void show_state(const char *state)
{
    printf("%s: status %02Xh, function %02Xh\n", state, read_register(READ_STATUS), read_register(READ_FUNCTION));
}

static unsigned erased_pages(uint32_t address)
{
    uint8_t page[PAGE_BYTES], erased[PAGE_BYTES];
    unsigned count = 0, pages;

    memset(erased, 0xFF, sizeof erased);
    for (pages = SECTOR_BYTES / PAGE_BYTES; pages > 0; pages--) {
        read_page(address, page);
        count += memcmp(page, erased, sizeof page) == 0;
        address += PAGE_BYTES;
    }
    return count;
}

/* The erase works for so many ticks, and is then suspended. */
static void suspend_after(unsigned ticks)
{
    printf("%u ticks of the erase\n", delay(ticks));
    send_command(SUSPEND);
    show_state("suspended");
    printf("%u of 16 pages erased\n", erased_pages(OLD_LOG));
}

static void resume(void)
{
    send_command(RESUME);
    show_state("resumed");
}

static void log_line(const char *line)
{
    start_line(line);
    show_state("programming");
    printf("%u ticks of the program\n", wait_ready());
    show_state("programmed");
}

/* A line during which the firmware tries to suspend and to resume. */
static void log_line_hastily(const char *line)
{
    start_line(line);
    printf("a suspend and a resume while the line is programmed:\n");
    send_command(SUSPEND);
    send_command(RESUME);
    printf("%u ticks of the program\n", wait_ready());
}

/* A line into the sector that is being erased: the erase would take it away again. */
static void log_line_astray(const char *line)
{
    printf("a line into the old log:\n");
    start_write(PAGE_PROGRAM, OLD_LOG + PAGE_BYTES, line);
    show_state("not programming");
    printf("81h reads %02Xh\n", read_register(READ_EXTENDED));
}

static void show_log(void)
{
    uint8_t page[PAGE_BYTES];

    read_page(NEW_LOG, page);
    printf("the new log, and %02Xh after it:\n%.*s", page[log_end - NEW_LOG], (int)(log_end - NEW_LOG),
           (const char *)page);
}

int main(void)
{
    power_up();
    start_write(SECTOR_ERASE, OLD_LOG, "");
    show_state("erasing the old log");
    suspend_after(5);
    log_line("10:00 start\n");
    resume();
    suspend_after(4);
    log_line("10:01 door open\n");
    log_line_hastily("10:01 door shut\n");
    resume();
    suspend_after(3);
    log_line_astray("10:02 low battery\n");
    resume();
    printf("%u ticks of the erase\n", wait_ready());
    printf("%u of 16 pages erased\n", erased_pages(OLD_LOG));
    send_command(CLEAR_ERRORS);
    printf("81h reads %02Xh\n", read_register(READ_EXTENDED));
    log_line("10:02 low battery\n");
    show_log();
    return 0;
}
