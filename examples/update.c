/*
 * An update tool that keeps a map of blank pages, so that it erases only what it must.
 *
 * A release is a number of pages that go to a slot of the part. A blank page can be programmed, and a page that holds
 * what it should is left alone. Only a sector with another page in it has to be erased. The map tells which pages are
 * blank without a read: it is made from the array at power-up, and kept while time passes. What this program prints is
 * in update.out; README.md says what each line shows.
 */
#include <stdbool.h>
#include <stdint.h>
#include <stdio.h>
#include <stdlib.h>
#include <string.h>

#include "yawlspar.h"

/* ---- The board: an 8 Mbit part, WP# tied high ---- */

#define BLOCKS 16u
#define PAGE_BYTES 256u
#define PAGES (BLOCKS * 256u)
#define WP_HIGH 1u

static uint8_t record[YAWLSPAR_RECORD_BYTES], array[BLOCKS * 65536u], rows[1024];
static uint8_t map[YAWLSPAR_MAP_BYTES(BLOCKS)];

/* No call of this program should be refused, and no transaction ignored. */
static uint64_t must_be_executed(uint64_t result)
{
    if (YAWLSPAR_NUMBER(result) != YAWLSPAR_EXECUTED) {
        printf("a call answered %u\n", (unsigned)YAWLSPAR_NUMBER(result));
        exit(1);
    }
    return result;
}

/* The map is in RAM and is lost with the power. It is made anew from what the part holds. */
static void power_up(void)
{
    must_be_executed(yawlspar_power_up(record, sizeof record, BLOCKS, 0x9D, 0x60, 0x14, 0x13, 0x00, 0x00, 0x00));
    must_be_executed(yawlspar_map_rebuild(BLOCKS, array, sizeof array, map, sizeof map));
}

static void spi_transfer(const uint8_t *out, uint8_t *in, size_t length)
{
    must_be_executed(yawlspar_transact(record, sizeof record, array, sizeof array, rows, sizeof rows, WP_HIGH, out, length,
                                       in, length));
}

/* Time passes, and the map follows. */
static void delay(unsigned ticks)
{
    must_be_executed(yawlspar_tick_map(record, sizeof record, array, sizeof array, rows, sizeof rows, ticks, map,
                                       sizeof map));
}

/* The first blank page from this one on, or PAGES if there is none. */
static unsigned next_blank(unsigned page)
{
    return (unsigned)YAWLSPAR_PAGE(must_be_executed(yawlspar_map_next(BLOCKS, map, sizeof map, page)));
}

/* ---- The driver ---- */

enum command { PAGE_PROGRAM = 0x02, READ = 0x03, WRITE_ENABLE = 0x06, SECTOR_ERASE = 0x20 };

#define SECTOR_PAGES 16u
#define ERASE_TICKS 16u

static void put_command(uint8_t *out, enum command command, unsigned page)
{
    out[0] = (uint8_t)command;
    out[1] = (uint8_t)(page >> 8);
    out[2] = (uint8_t)page;
    out[3] = 0x00;
}

/* An erase of the page's sector, which has no data, or a program of the page, and the wait for it. */
static void run_write(enum command command, unsigned page, const uint8_t *data, size_t length, unsigned ticks)
{
    uint8_t enable[] = {WRITE_ENABLE}, out[4 + PAGE_BYTES], in[sizeof out];

    spi_transfer(enable, in, sizeof enable);
    put_command(out, command, page);
    if (length > 0)
        memcpy(out + 4, data, length);
    spi_transfer(out, in, 4 + length);
    delay(ticks);
}

static bool holds(unsigned page, const uint8_t *wanted)
{
    uint8_t out[4 + PAGE_BYTES] = {0}, in[sizeof out];

    put_command(out, READ, page);
    spi_transfer(out, in, sizeof out);
    return memcmp(in + 4, wanted, PAGE_BYTES) == 0;
}

/* ---- The update ---- */

#define SLOT_PAGE 0x400u /* the slot begins at 040000h */
#define SLOT_SECTORS 32u

static uint8_t image[SLOT_SECTORS * SECTOR_PAGES][PAGE_BYTES];
static unsigned erases, programs;

static bool is_blank(unsigned page)
{
    return next_blank(page) == page;
}

static bool is_wanted_blank(unsigned page)
{
    const uint8_t *wanted = image[page - SLOT_PAGE];
    unsigned i = 0;

    while (i < PAGE_BYTES && wanted[i] == 0xFF)
        i++;
    return i == PAGE_BYTES;
}

/* Only pages that are not blank are read. */
static bool must_erase(unsigned first)
{
    unsigned page;

    for (page = first; page < first + SECTOR_PAGES; page++)
        if (!is_blank(page) && !holds(page, image[page - SLOT_PAGE]))
            return true;
    return false;
}

static void update_sector(unsigned first)
{
    unsigned page;

    if (must_erase(first)) {
        run_write(SECTOR_ERASE, first, NULL, 0, ERASE_TICKS);
        erases++;
    }
    for (page = first; page < first + SECTOR_PAGES; page++)
        if (is_blank(page) && !is_wanted_blank(page)) {
            run_write(PAGE_PROGRAM, page, image[page - SLOT_PAGE], PAGE_BYTES, PAGE_BYTES);
            programs++;
        }
}

static void update(unsigned sectors)
{
    unsigned sector;

    erases = 0;
    programs = 0;
    for (sector = 0; sector < sectors; sector++)
        update_sector(SLOT_PAGE + sector * SECTOR_PAGES);
    printf("  %u sectors: %u erases, %u saved, %u programs\n", sectors, erases, sectors - erases, programs);
}

/* ---- What goes to the slot, and what is seen of it ---- */

/* Pages `from` to `to` - 1 of the image are those of this release. */
static void fill_pages(unsigned release, unsigned from, unsigned to)
{
    for (; from < to; from++)
        memset(image[from], (int)(16 * release + from % 13), PAGE_BYTES);
}

/* A page beyond the part would be refused: the last question is about the last page. */
static unsigned count_blank(void)
{
    unsigned page, count = 0;

    for (page = 0; page < PAGES && (page = next_blank(page)) < PAGES; page++)
        count++;
    return count;
}

/* The map that was kept is the one that a scan of the whole array makes. */
static void show_map(void)
{
    static uint8_t scanned[sizeof map];

    must_be_executed(yawlspar_map_rebuild(BLOCKS, array, sizeof array, scanned, sizeof scanned));
    printf("  %u of %u pages blank, the map is %s\n", count_blank(), PAGES,
           memcmp(map, scanned, sizeof map) == 0 ? "right" : "wrong");
}

/* The erase of this sector gets 9 of its 16 ticks. */
static void lose_power_in_erase(unsigned sector)
{
    run_write(SECTOR_ERASE, SLOT_PAGE + sector * SECTOR_PAGES, NULL, 0, 9);
    power_up();
}

int main(void)
{
    memset(array, 0xFF, sizeof array);
    memset(rows, 0xFF, sizeof rows);
    memset(image, 0xFF, sizeof image);
    power_up();
    show_map();

    printf("release 1, 187 pages into a blank slot:\n");
    fill_pages(1, 0, 187);
    update(12);
    show_map();

    printf("release 2, 220 pages, the first 96 as they were:\n");
    fill_pages(2, 96, 220);
    update(14);
    show_map();

    printf("release 3, 220 new pages; the power fails in the erase of sector 4:\n");
    fill_pages(3, 0, 220);
    update(4);
    lose_power_in_erase(4);
    show_map();
    printf("started over:\n");
    update(14);
    show_map();
    printf("and once more:\n");
    update(14);
    return 0;
}
