/*
 * A logging driver that counts the wear of its part, and draws it.
 *
 * The driver writes a log into a ring of sectors. For each page of the log it adds an entry to an index, so that it finds
 * the log's end after a power-up. The next sector of the ring is erased in the background, one tick after each page; the
 * page and its entry are programmed while that erase is suspended. Now and then it rewrites the settings, and twice the
 * firmware.
 *
 *   wear           runs the log and prints the wear: with the index in one sector, and with an index that moves on
 *   wear FILE      also draws the wear of the first run into FILE, an SVG picture: a cell for each sector
 *
 * What this program prints is in wear.out, and what it draws in wear.svg; README.md says what each line shows.
 */
#include <inttypes.h>
#include <stdbool.h>
#include <stdint.h>
#include <stdio.h>
#include <stdlib.h>
#include <string.h>

#include "yawlspar.h"

/* ---- The board: an 8 Mbit part, WP# tied high ---- */

#define BLOCKS 16u
#define SECTORS YAWLSPAR_SECTORS(BLOCKS)
#define SECTOR_BYTES 4096u
#define PAGE_BYTES 256u
#define WP_HIGH 1u

static uint8_t record[YAWLSPAR_RECORD_BYTES], array[BLOCKS * 65536u], rows[1024];
static yawlspar_wear wear[SECTORS];

/* No call of this program should be refused, and no transaction ignored. */
static uint64_t must_be_executed(uint64_t result)
{
    if (YAWLSPAR_NUMBER(result) != YAWLSPAR_EXECUTED) {
        printf("a call answered %u\n", (unsigned)YAWLSPAR_NUMBER(result));
        exit(1);
    }
    return result;
}

/* The counts are no part of the part: a power-up leaves them. */
static void power_up(void)
{
    must_be_executed(yawlspar_power_up(record, sizeof record, BLOCKS, 0x9D, 0x60, 0x14, 0x13, 0x00, 0x00, 0x00));
}

static void begin_blank(void)
{
    memset(array, 0xFF, sizeof array);
    memset(rows, 0xFF, sizeof rows);
    memset(wear, 0, sizeof wear);
    power_up();
}

static void spi_transfer(const uint8_t *out, uint8_t *in, size_t length)
{
    must_be_executed(yawlspar_transact(record, sizeof record, array, sizeof array, rows, sizeof rows, WP_HIGH, out, length,
                                       in, length));
}

/* Time passes, and is counted. Gives how many ticks the part worked in. */
static unsigned delay(unsigned ticks)
{
    return (unsigned)YAWLSPAR_TICKS(must_be_executed(yawlspar_tick_wear(
        record, sizeof record, array, sizeof array, rows, sizeof rows, ticks, wear, SECTORS)));
}

/* ---- The driver ---- */

enum command {
    PAGE_PROGRAM = 0x02,
    WRITE_ENABLE = 0x06,
    SECTOR_ERASE = 0x20,
    SUSPEND = 0x75,
    RESUME = 0x7A,
    BLOCK_ERASE = 0xD8
};

#define ERASE_TICKS 16u
#define BLOCK_TICKS 256u

static void put_command(uint8_t *out, enum command command, uint32_t address)
{
    out[0] = (uint8_t)command;
    out[1] = (uint8_t)(address >> 16);
    out[2] = (uint8_t)(address >> 8);
    out[3] = (uint8_t)address;
}

static void send_code(enum command command)
{
    uint8_t out[] = {(uint8_t)command}, in[sizeof out];

    spi_transfer(out, in, sizeof out);
}

static void start_erase(enum command command, uint32_t address)
{
    uint8_t out[4], in[sizeof out];

    send_code(WRITE_ENABLE);
    put_command(out, command, address);
    spi_transfer(out, in, sizeof out);
}

static void erase(enum command command, uint32_t address, unsigned ticks)
{
    start_erase(command, address);
    delay(ticks);
}

/* Programs up to a page and waits for it: a script of two steps, which counts as single calls do. */
static void program(uint32_t address, const uint8_t *data, size_t length)
{
    uint8_t input[1 + 4 + PAGE_BYTES] = {WRITE_ENABLE}, output[sizeof input], answers[2];
    uint16_t lengths[] = {1, (uint16_t)(4 + length)}, ticks[] = {0, (uint16_t)length}, done[2];

    put_command(input + 1, PAGE_PROGRAM, address);
    memcpy(input + 5, data, length);
    must_be_executed(yawlspar_script_wear(record, sizeof record, array, sizeof array, rows, sizeof rows, WP_HIGH, input,
                                          5 + length, lengths, 2, ticks, 2, output, 5 + length, answers, 2, done, 2, wear,
                                          SECTORS));
    must_be_executed(answers[0]);
    must_be_executed(answers[1]);
}

/* ---- Where things are ---- */

#define INDEX_SECTOR 0u
#define LOG_SECTOR 16u
#define LOG_SECTORS 64u
#define FIRMWARE_SECTOR 128u
#define FIRMWARE_BLOCKS 3u
#define SETTINGS_SECTOR 255u

#define PAGES (SECTOR_BYTES / PAGE_BYTES) /* of a sector */
#define ENTRY_BYTES 16u
#define ENTRIES (SECTOR_BYTES / ENTRY_BYTES) /* of a sector of the index */

static uint32_t address_of(unsigned sector)
{
    return sector * SECTOR_BYTES;
}

/* ---- The log ---- */

static unsigned index_sectors; /* that the index takes turns in */
static unsigned log_pages;     /* so far; one entry of the index for each */
static bool erasing;           /* the next sector of the ring, in the background */

static void finish_erase(void)
{
    if (erasing)
        delay(ERASE_TICKS);
    erasing = false;
}

/* A full sector of the index is followed by the next one, or by itself, which is erased first. */
static void add_entry(void)
{
    unsigned sector = INDEX_SECTOR + log_pages / ENTRIES % index_sectors;
    uint8_t entry[ENTRY_BYTES];

    memset(entry, (int)(log_pages % 251), sizeof entry);
    program(address_of(sector) + log_pages % ENTRIES * ENTRY_BYTES, entry, sizeof entry);
}

static void make_room_in_index(void)
{
    if (log_pages % ENTRIES != 0)
        return;
    finish_erase();
    erase(SECTOR_ERASE, address_of(INDEX_SECTOR + log_pages / ENTRIES % index_sectors), ERASE_TICKS);
}

/* At the first page of a sector the one after it is due, and its erase begins. */
static void make_room_in_log(void)
{
    if (log_pages % PAGES != 0)
        return;
    finish_erase();
    start_erase(SECTOR_ERASE, address_of(LOG_SECTOR + (log_pages / PAGES + 1) % LOG_SECTORS));
    erasing = true;
}

/* One page, and its entry. The erase in the background has a tick, and is suspended meanwhile. */
static void log_page(void)
{
    uint8_t page[PAGE_BYTES];

    memset(page, (int)(log_pages % 253), sizeof page);
    make_room_in_index();
    make_room_in_log();
    if (erasing)
        send_code(SUSPEND);
    program(address_of(LOG_SECTOR) + log_pages % (LOG_SECTORS * PAGES) * PAGE_BYTES, page, sizeof page);
    add_entry();
    log_pages++;
    if (erasing) {
        send_code(RESUME);
        delay(1);
        erasing = log_pages % PAGES != 0; /* its sixteenth tick was its last */
    }
}

/* ---- Settings and firmware ---- */

static void write_settings(void)
{
    static const uint8_t settings[64];

    finish_erase();
    erase(SECTOR_ERASE, address_of(SETTINGS_SECTOR), ERASE_TICKS);
    program(address_of(SETTINGS_SECTOR), settings, sizeof settings);
}

static void write_firmware(void)
{
    static const uint8_t page[PAGE_BYTES];
    uint32_t at = address_of(FIRMWARE_SECTOR), end = at + FIRMWARE_BLOCKS * 65536u;

    for (; at < end; at += PAGE_BYTES) {
        if (at % 65536u == 0)
            erase(BLOCK_ERASE, at, BLOCK_TICKS);
        program(at, page, sizeof page);
    }
}

/* The power fails in the first erase, after 100 of its 256 ticks: six sectors are finished, and counted. */
static void lose_power_in_update(void)
{
    erase(BLOCK_ERASE, address_of(FIRMWARE_SECTOR), 100);
    power_up();
}

#define ROUNDS 30u /* of the ring */

static void run_log(unsigned sectors_of_index)
{
    unsigned pages = ROUNDS * LOG_SECTORS * PAGES;

    begin_blank();
    index_sectors = sectors_of_index;
    log_pages = 0;
    erasing = false;
    while (log_pages < pages) {
        log_page();
        if (log_pages % 2048 == 0)
            write_settings();
    }
    finish_erase();
    write_firmware();
    lose_power_in_update();
    write_firmware();
}

/* ---- The wear as text ---- */

static char text[YAWLSPAR_WEAR_TEXT_BYTES(BLOCKS) + 1];

static void make_text(void)
{
    uint64_t result = yawlspar_wear_text(BLOCKS, wear, SECTORS, (uint8_t *)text, sizeof text - 1);

    text[YAWLSPAR_LENGTH(must_be_executed(result))] = 0;
}

static bool ends_with(const char *line, size_t length, const char *end)
{
    return length >= strlen(end) && memcmp(line + length - strlen(end), end, strlen(end)) == 0;
}

/* The text without the sectors that were never written. */
static void print_worn_lines(void)
{
    const char *line = text, *next;
    unsigned left_out = 0;

    for (; *line != 0; line = next) {
        next = strchr(line, '\n') + 1;
        if (ends_with(line, (size_t)(next - line), " 0 0\n"))
            left_out++;
        else
            printf("%.*s", (int)(next - line), line);
    }
    printf("(%u sectors with no erase and no program are left out)\n", left_out);
}

static void print_last_lines(void)
{
    printf("%s", strstr(text, "largest"));
}

/* ---- The wear as a picture ---- */

#define CELL 46u
#define GAP 2u
#define LEFT 92u
#define TOP 96u
#define MAP_PIXELS (16u * (CELL + GAP))
#define WIDTH (LEFT + MAP_PIXELS + 150u)
#define HEIGHT (TOP + MAP_PIXELS + 96u)

/* From none to many. Each step but the first is twice as many erases as the one before, and the last has no end. */
static const struct {
    const char *colour, *ink;
    const char *label;
} steps[] = {
    {"#f1f1ee", "#a6a69f", "0"},     {"#ffffcc", "#5a5a52", "1"},     {"#ffeda0", "#5a5a52", "2-3"},
    {"#fed976", "#4d4430", "4-7"},   {"#feb24c", "#47351c", "8-15"},  {"#fd8d3c", "#40260d", "16-31"},
    {"#f0532d", "#ffffff", "32-63"}, {"#cf1a26", "#ffffff", "64-127"}, {"#86002c", "#ffffff", "128 and more"},
};

#define STEPS (sizeof steps / sizeof steps[0])

static size_t step_of(uint32_t erases)
{
    size_t step = 0;

    for (; erases > 0 && step + 1 < STEPS; erases /= 2)
        step++;
    return step;
}

static void draw_head(FILE *to)
{
    fprintf(to,
            "<svg xmlns=\"http://www.w3.org/2000/svg\" viewBox=\"0 0 %u %u\" width=\"%u\" height=\"%u\" "
            "font-family=\"DejaVu Sans, Verdana, Arial, sans-serif\">\n"
            "<title>Erases and programs of each sector of a part of %u blocks</title>\n"
            "<rect width=\"100%%\" height=\"100%%\" fill=\"#ffffff\"/>\n",
            WIDTH, HEIGHT, WIDTH, HEIGHT, BLOCKS);
    fprintf(to, "<text x=\"%u\" y=\"34\" font-size=\"20\" font-weight=\"bold\" fill=\"#22221f\">Wear of a logging driver</text>\n",
            LEFT);
    fprintf(to,
            "<text x=\"%u\" y=\"56\" font-size=\"13\" fill=\"#5a5a52\">A cell is a sector of 4 Kbyte, a row a block. "
            "Large: erases. Small: programs.</text>\n",
            LEFT);
}

/* The number of a sector in its block, above each column, and the address of each block, before its row. */
static void draw_scales(FILE *to)
{
    unsigned i;

    fprintf(to, "<g font-size=\"11\" fill=\"#77776f\">\n");
    for (i = 0; i < 16; i++) {
        fprintf(to, "<text x=\"%u\" y=\"%u\" text-anchor=\"middle\">%u</text>\n", LEFT + i * (CELL + GAP) + CELL / 2, TOP - 8, i);
        fprintf(to, "<text x=\"%u\" y=\"%u\" text-anchor=\"end\">%06Xh</text>\n", LEFT - 10, TOP + i * (CELL + GAP) + CELL / 2 + 4,
                (unsigned)address_of(i * 16));
    }
    fprintf(to, "</g>\n");
}

static void draw_cell(FILE *to, unsigned sector)
{
    unsigned x = LEFT + sector % 16 * (CELL + GAP), y = TOP + sector / 16 * (CELL + GAP);
    uint32_t erases = wear[sector].erases, programs = wear[sector].programs;
    size_t step = step_of(erases);

    fprintf(to,
            "<g><title>sector %u at %06Xh: %" PRIu32 " erases, %" PRIu32 " programs</title>"
            "<rect x=\"%u\" y=\"%u\" width=\"%u\" height=\"%u\" rx=\"3\" fill=\"%s\"/>",
            sector, (unsigned)address_of(sector), erases, programs, x, y, CELL, CELL, steps[step].colour);
    fprintf(to, "<text x=\"%u\" y=\"%u\" font-size=\"15\" fill=\"%s\">%" PRIu32 "</text>", x + CELL / 2,
            y + (programs > 0 ? 23 : 28), steps[step].ink, erases);
    if (programs > 0)
        fprintf(to, "<text x=\"%u\" y=\"%u\" font-size=\"10\" fill=\"%s\">%" PRIu32 "</text>", x + CELL / 2, y + 38,
                steps[step].ink, programs);
    fprintf(to, "</g>\n");
}

/* A line beside the rows of these sectors, with words behind it. */
static void draw_place(FILE *to, unsigned first, unsigned last, const char *words)
{
    unsigned x = LEFT + MAP_PIXELS + 8, from = TOP + first / 16 * (CELL + GAP), until = TOP + last / 16 * (CELL + GAP) + CELL;

    fprintf(to, "<path d=\"M%u %uV%u\" stroke=\"#77776f\" stroke-width=\"2\"/>", x, from, until);
    fprintf(to, "<text x=\"%u\" y=\"%u\" font-size=\"12\" fill=\"#3c3c37\">%s</text>\n", x + 10, (from + until) / 2 + 4, words);
}

static void draw_legend(FILE *to)
{
    unsigned y = TOP + MAP_PIXELS + 28, wide = MAP_PIXELS / STEPS, i;

    fprintf(to, "<text x=\"%u\" y=\"%u\" font-size=\"12\" fill=\"#3c3c37\">erases of a sector</text>\n", LEFT, y);
    for (i = 0; i < STEPS; i++)
        fprintf(to,
                "<rect x=\"%u\" y=\"%u\" width=\"%u\" height=\"16\" rx=\"3\" fill=\"%s\"/>"
                "<text x=\"%u\" y=\"%u\" font-size=\"11\" fill=\"#5a5a52\" text-anchor=\"middle\">%s</text>\n",
                LEFT + i * wide, y + 10, wide - GAP, steps[i].colour, LEFT + i * wide + (wide - GAP) / 2, y + 42, steps[i].label);
}

static void draw(FILE *to)
{
    unsigned sector;

    draw_head(to);
    draw_scales(to);
    fprintf(to, "<g text-anchor=\"middle\">\n");
    for (sector = 0; sector < SECTORS; sector++)
        draw_cell(to, sector);
    fprintf(to, "</g>\n");
    draw_place(to, INDEX_SECTOR, INDEX_SECTOR, "index, sector 0");
    draw_place(to, LOG_SECTOR, LOG_SECTOR + LOG_SECTORS - 1, "log, a ring");
    draw_place(to, FIRMWARE_SECTOR, FIRMWARE_SECTOR + 16 * FIRMWARE_BLOCKS - 1, "firmware");
    draw_place(to, SETTINGS_SECTOR, SETTINGS_SECTOR, "settings, sector 255");
    draw_legend(to);
    fprintf(to, "</svg>\n");
}

static bool draw_into(const char *name)
{
    FILE *to = fopen(name, "w");
    bool failed;

    if (to == NULL)
        return false;
    draw(to);
    failed = ferror(to) != 0;
    return fclose(to) == 0 && !failed;
}

int main(int argc, char **argv)
{
    if (argc > 2) {
        fprintf(stderr, "usage: wear [FILE]\n");
        return 2;
    }
    printf("%u rounds of a log in %u sectors, its index in one:\n", ROUNDS, LOG_SECTORS);
    run_log(1);
    make_text();
    print_worn_lines();
    if (argc == 2 && !draw_into(argv[1])) {
        fprintf(stderr, "wear: %s cannot be written\n", argv[1]);
        return 1;
    }
    printf("the same with an index in 16 sectors, one after the other:\n");
    run_log(16);
    make_text();
    print_last_lines();
    return 0;
}
