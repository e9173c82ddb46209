/*
 * An update that is cut and started over, as firmware has it, run on the model of the part in place of the part.
 *
 * The update replaces what a sector holds: it erases the sector and programs a new image. The board cuts it after any
 * number of ticks: the processor is reset, or the power is lost. The firmware then boots, and starts the update from
 * its beginning. At each cut this program looks at every byte of the array and the rows. After the restart it compares
 * them with those of an undisturbed update. If one is not as it should be, it says so and ends with status 1.
 *
 * The board below is that of driver.c, with a cut in its clock. What this program prints is in restart.out; README.md
 * says what each line shows.
 */
#include <limits.h>
#include <setjmp.h>
#include <stdint.h>
#include <stdio.h>
#include <stdlib.h>
#include <string.h>

#include "yawlspar.h"

/* ---- The board: an 8 Mbit part and its bus, WP# tied high, and a processor that can be cut ---- */

#define BLOCKS 16u
#define BLOCK_BYTES 65536u
#define WP_HIGH 1u
#define NEVER UINT_MAX

static uint8_t record[YAWLSPAR_RECORD_BYTES];
static uint8_t array[BLOCKS * BLOCK_BYTES];
static uint8_t rows[1024];

/* When so many more ticks have passed, the processor leaves what it is doing and boots. */
static unsigned ticks_to_cut = NEVER;
static jmp_buf boot;

/* The model refuses a call only where this program is wrong. */
static void must_not_refuse(uint64_t number)
{
    if (number >= YAWLSPAR_BAD_SIZE && number <= YAWLSPAR_BAD_TICKS) {
        printf("the model refused a call: %u\n", (unsigned)number);
        exit(1);
    }
}

/* Array and rows hold what they held. */
static void power_up(uint8_t status)
{
    must_not_refuse(yawlspar_power_up(record, sizeof record, BLOCKS, 0x9D, 0x60, 0x14, 0x13, status, 0x00, 0x00));
}

/* Clocks out `length` bytes and, in the same clocks, as many in. A board's part would ignore silently. */
static void spi_transfer(const uint8_t *out, uint8_t *in, size_t length)
{
    uint64_t number = YAWLSPAR_NUMBER(yawlspar_transact(record, sizeof record, array, sizeof array, rows, sizeof rows,
                                                        WP_HIGH, out, length, in, length));

    must_not_refuse(number);
    if (number != YAWLSPAR_EXECUTED)
        printf("  the part ignored %02Xh: %u\n", out[0], (unsigned)number);
}

/* Lets ticks pass. Gives how many of them the part worked in. It does not return if the cut comes first. */
static unsigned delay(unsigned ticks)
{
    unsigned now = ticks < ticks_to_cut ? ticks : ticks_to_cut;
    uint64_t result = yawlspar_tick(record, sizeof record, array, sizeof array, rows, sizeof rows, now);

    must_not_refuse(YAWLSPAR_NUMBER(result));
    if (now < ticks)
        longjmp(boot, 1);
    if (ticks_to_cut != NEVER)
        ticks_to_cut -= now;
    return (unsigned)YAWLSPAR_TICKS(result);
}

/* ---- The driver ---- */

enum command {
    PAGE_PROGRAM = 0x02,
    READ = 0x03,
    READ_STATUS = 0x05,
    WRITE_ENABLE = 0x06,
    RESET_ENABLE = 0x66,
    RESET = 0x99,
    SECTOR_ERASE = 0xD7
};

#define WIP 0x01u
#define PAGE_BYTES 256u
#define SECTOR_BYTES 4096u
#define POLL_TICKS 4u

static void send_command(enum command command)
{
    uint8_t out[] = {(uint8_t)command}, in[sizeof out];

    spi_transfer(out, in, sizeof out);
}

static void put_address(uint8_t *out, enum command command, uint32_t address)
{
    out[0] = (uint8_t)command;
    out[1] = (uint8_t)(address >> 16);
    out[2] = (uint8_t)(address >> 8);
    out[3] = (uint8_t)address;
}

static uint8_t read_status(void)
{
    uint8_t out[2] = {READ_STATUS}, in[sizeof out];

    spi_transfer(out, in, sizeof out);
    return in[1];
}

static void read_page(uint32_t address, uint8_t page[PAGE_BYTES])
{
    uint8_t out[4 + PAGE_BYTES], in[sizeof out];

    memset(out, 0, sizeof out);
    put_address(out, READ, address);
    spi_transfer(out, in, sizeof out);
    memcpy(page, in + 4, PAGE_BYTES);
}

/* Gives the ticks that it took. */
static unsigned wait_ready(void)
{
    unsigned ticks = 0;

    while ((read_status() & WIP) != 0)
        ticks += delay(POLL_TICKS);
    return ticks;
}

static void start_erase(uint32_t address)
{
    uint8_t out[4], in[sizeof out];

    put_address(out, SECTOR_ERASE, address);
    spi_transfer(out, in, sizeof out);
}

static void start_program(uint32_t address, const uint8_t page[PAGE_BYTES])
{
    uint8_t out[4 + PAGE_BYTES], in[sizeof out];

    put_address(out, PAGE_PROGRAM, address);
    memcpy(out + 4, page, PAGE_BYTES);
    spi_transfer(out, in, sizeof out);
}

static void software_reset(void)
{
    send_command(RESET_ENABLE);
    send_command(RESET);
}

/* ---- The update ---- */

#define TARGET 0x004000u
#define PAGES (SECTOR_BYTES / PAGE_BYTES)

static uint8_t image[SECTOR_BYTES];

/* Gives the ticks that it took. */
static unsigned erase_target(void)
{
    send_command(WRITE_ENABLE);
    start_erase(TARGET);
    return wait_ready();
}

static void program_image(void)
{
    uint32_t at;

    for (at = 0; at < SECTOR_BYTES; at += PAGE_BYTES) {
        send_command(WRITE_ENABLE);
        start_program(TARGET + at, image + at);
        wait_ready();
    }
}

static void update(void)
{
    erase_target();
    program_image();
}

/* ---- What the part has to hold ---- */

struct memory {
    uint8_t array[sizeof array], rows[sizeof rows];
};

/* Before the update, and after the erase and the whole of an undisturbed one. */
static struct memory before, erased, updated;

static void keep(struct memory *memory)
{
    memcpy(memory->array, array, sizeof array);
    memcpy(memory->rows, rows, sizeof rows);
}

static void must_be_same(const uint8_t *bytes, const uint8_t *expected, size_t length, const char *what,
                         const char *when)
{
    size_t i;

    for (i = 0; i < length; i++) {
        if (bytes[i] != expected[i]) {
            printf("\n%s: place %06Xh of the %s holds %02Xh and not %02Xh\n", when, (unsigned)i, what, bytes[i],
                   expected[i]);
            exit(1);
        }
    }
}

static void must_hold(const struct memory *expected, const char *when)
{
    must_be_same(array, expected->array, sizeof array, "array", when);
    must_be_same(rows, expected->rows, sizeof rows, "rows", when);
}

/* So many pages of the sector, the first ones, are FFh. All else is as before the update. */
static void must_be_erased(unsigned pages, const char *when)
{
    static struct memory expected;

    expected = before;
    memset(expected.array + TARGET, 0xFF, pages * PAGE_BYTES);
    must_hold(&expected, when);
}

/* So many bytes of the image, the first ones, are in the sector: a program narrows FFh to the byte. All else is as
 * after the erase. */
static void must_be_programmed(uint32_t bytes, const char *when)
{
    static struct memory expected;

    expected = erased;
    memcpy(expected.array + TARGET, image, bytes);
    must_hold(&expected, when);
}

/* A page as a letter: F is erased, a point is as before, n is new. */
static char letter(uint32_t at)
{
    uint8_t page[PAGE_BYTES], blank[PAGE_BYTES];

    memset(blank, 0xFF, sizeof blank);
    read_page(TARGET + at, page);
    if (memcmp(page, blank, sizeof page) == 0)
        return 'F';
    if (memcmp(page, before.array + TARGET + at, sizeof page) == 0)
        return '.';
    return memcmp(page, image + at, sizeof page) == 0 ? 'n' : '?';
}

/* The pages of the sector, as the driver reads them. */
static const char *pages(void)
{
    static char letters[PAGES + 1];
    uint32_t i;

    for (i = 0; i < PAGES; i++)
        letters[i] = letter(i * PAGE_BYTES);
    return letters;
}

/* ---- What is tried ---- */

enum cut { BY_RESET, BY_POWER_LOSS };

static const char *const cut_names[] = {"by reset", "by power loss"};

/* A part that was never updated. */
static void new_part(void)
{
    memcpy(array, before.array, sizeof array);
    memcpy(rows, before.rows, sizeof rows);
    power_up(0x00);
}

/* The processor runs the update for so many ticks. The part is then in the middle of it. */
static void run_until_cut(unsigned ticks)
{
    ticks_to_cut = ticks;
    if (setjmp(boot) == 0) {
        update();
        printf("the update was not cut\n");
        exit(1);
    }
    ticks_to_cut = NEVER;
}

/* The update is cut, and the processor boots. If the part had power all the while, the boot code resets it. */
static void cut_update(unsigned ticks, enum cut cut)
{
    run_until_cut(ticks);
    if (cut == BY_RESET)
        software_reset();
    else
        power_up(0x00);
}

/* The update from its beginning, with no cut. It has to end as an undisturbed one. Gives the ticks of its erase. */
static unsigned start_over(void)
{
    unsigned ticks = erase_target();

    must_hold(&erased, "after the erase");
    program_image();
    must_hold(&updated, "after the update");
    return ticks;
}

static void run_undisturbed(void)
{
    unsigned ticks;

    new_part();
    ticks = erase_target();
    keep(&erased);
    must_be_erased(PAGES, "undisturbed");
    printf("undisturbed: %u ticks of the erase, %s;", ticks, pages());
    program_image();
    keep(&updated);
    printf(" with the image %s\n", pages());
}

static void cut_and_start_over(unsigned ticks)
{
    enum cut cut;

    printf("cut after %2u of 16 ticks:", ticks);
    for (cut = BY_RESET; cut <= BY_POWER_LOSS; cut++) {
        new_part();
        cut_update(ticks, cut);
        must_be_erased(ticks, "at the cut");
        printf(" %s %s,", cut_names[cut], pages());
        printf(" done over in %u%s", start_over(), cut == BY_RESET ? ";" : "\n");
    }
}

/* BP3 to BP0 are 0001: block 15 is protected. The sector lies in block 0. */
static void come_back_with_other_registers(void)
{
    new_part();
    run_until_cut(7);
    power_up(0x04);
    must_be_erased(7, "at the cut");
    printf("power back with status %02Xh: %s,", read_status(), pages());
    printf(" done over in %u\n", start_over());
}

static void forget_write_enable(void)
{
    unsigned ticks;

    new_part();
    cut_update(5, BY_RESET);
    must_be_erased(5, "at the cut");
    printf("cut after 5, and an erase without write enable:\n");
    start_erase(TARGET);
    ticks = wait_ready();
    must_be_erased(5, "without write enable");
    printf("%u ticks, %s, with write enable", ticks, pages());
    printf(" done over in %u\n", start_over());
}

static void cut_again_and_again(void)
{
    static const struct {
        unsigned ticks, erased;
        enum cut cut;
    } cuts[] = {{9, 9, BY_RESET}, {2, 9, BY_POWER_LOSS}, {15, 15, BY_POWER_LOSS}, {0, 15, BY_RESET}};
    size_t i;

    new_part();
    printf("cut again and again:\n");
    for (i = 0; i < sizeof cuts / sizeof cuts[0]; i++) {
        cut_update(cuts[i].ticks, cuts[i].cut);
        must_be_erased(cuts[i].erased, "at the cut");
        printf("after %2u %s: %s\n", cuts[i].ticks, cut_names[cuts[i].cut], pages());
    }
    printf("done over in %u\n", start_over());
}

/* The programs come after the erase, and the erase that is done over takes them away. */
static void cut_in_the_programs(void)
{
    new_part();
    cut_update(16 + 1000, BY_POWER_LOSS);
    must_be_programmed(1000, "at the cut");
    printf("cut after 1000 ticks of the programs: %s,", pages());
    printf(" done over in %u\n", start_over());
}

static void show_image(void)
{
    uint8_t page[PAGE_BYTES];
    unsigned good = 0;
    uint32_t at, i;

    for (at = 0; at < SECTOR_BYTES; at += PAGE_BYTES) {
        read_page(TARGET + at, page);
        for (i = 0; i < PAGE_BYTES; i++)
            good += page[i] == image[at + i];
    }
    printf("the image: %u of %u bytes\n", good, SECTOR_BYTES);
}

/* What the part holds before has no FFh in it, so that each page that is erased shows, and each that is not. */
static void make_content(void)
{
    uint32_t i;

    for (i = 0; i < sizeof before.array; i++)
        before.array[i] = (uint8_t)((i + i / PAGE_BYTES) % 255);
    for (i = 0; i < sizeof before.rows; i++)
        before.rows[i] = (uint8_t)(i % 255);
    for (i = 0; i < sizeof image; i++)
        image[i] = (uint8_t)(7 * i + i / PAGE_BYTES);
}

int main(void)
{
    unsigned ticks;

    make_content();
    run_undisturbed();
    for (ticks = 0; ticks < PAGES; ticks++)
        cut_and_start_over(ticks);
    come_back_with_other_registers();
    forget_write_enable();
    cut_again_and_again();
    cut_in_the_programs();
    show_image();
    return 0;
}
