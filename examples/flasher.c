/*
 * A flasher: it turns an image into a script, and has the script checked before it goes to a board.
 *
 *   flasher              flash a small image that is built in; then wrong flashers, which are caught
 *   flasher NEW [OLD]    flash the file NEW on a part that holds the file OLD; what is after the end of OLD, or all if
 *                        there is none, is blank. The exit status is 0 if the script is accepted, and else 1
 *
 * The flasher knows what the part holds and what it should hold. It erases each sector in which a bit has to go from 0
 * to 1. Then it programs the bytes that still differ: each run of them within a page in one program. Each erase and each
 * program has 06h before it, and its ticks after it. Such a script is accepted on every unprotected part that is idle
 * and awake. What this program prints with no argument is in flasher.out; README.md says what each line shows.
 */
#include <stdint.h>
#include <stdio.h>
#include <stdlib.h>
#include <string.h>

#include "yawlspar.h"

/* ---- The part: WP# tied high ---- */

#define BLOCK_BYTES 65536u
#define SECTOR_BYTES 4096u
#define PAGE_BYTES 256u
#define LARGE 512u /* blocks of the part with four address bytes */
#define WP_HIGH 1u

static uint8_t record[YAWLSPAR_RECORD_BYTES];
static uint8_t rows[1024];

/* Of the part's size: what it holds, what it holds at the start, and what it should hold. */
static uint8_t *array, *start, *image;
static unsigned blocks;
static size_t size;

static void *room_for(size_t bytes, void *before)
{
    void *room = realloc(before, bytes);

    if (room == NULL) {
        fprintf(stderr, "flasher: no memory\n");
        exit(2);
    }
    return room;
}

static void make_part(unsigned its_blocks)
{
    blocks = its_blocks;
    size = (size_t)blocks * BLOCK_BYTES;
    array = room_for(size, array);
    start = room_for(size, start);
    image = room_for(size, image);
    memset(start, 0xFF, size);
}

static void power_up(uint8_t status)
{
    memcpy(array, start, size);
    memset(rows, 0xFF, sizeof rows);
    if (yawlspar_power_up(record, sizeof record, blocks, 0x9D, 0x60, 0x14, 0x13, status, 0x00, 0x00) != 0) {
        printf("the model refused a power-up\n");
        exit(1);
    }
}

/* ---- The script ---- */

enum command {
    PAGE_PROGRAM = 0x02,
    PAGE_PROGRAM_FAR = 0x12, /* these two have four address bytes, on 512 blocks */
    SECTOR_ERASE = 0x20,
    SECTOR_ERASE_FAR = 0x21,
    READ_STATUS = 0x05,
    WRITE_ENABLE = 0x06
};

#define ERASE_TICKS 16u

static struct {
    size_t steps, bytes, steps_room, bytes_room;
    unsigned erases, programs;
    uint8_t *input, *output, *answers;
    uint16_t *lengths, *ticks, *done;
} script;

static void empty_script(void)
{
    script.steps = 0;
    script.bytes = 0;
    script.erases = 0;
    script.programs = 0;
}

static void make_room(size_t length)
{
    if (script.steps == script.steps_room) {
        script.steps_room = 2 * script.steps_room + 64;
        script.answers = room_for(script.steps_room, script.answers);
        script.lengths = room_for(script.steps_room * sizeof *script.lengths, script.lengths);
        script.ticks = room_for(script.steps_room * sizeof *script.ticks, script.ticks);
        script.done = room_for(script.steps_room * sizeof *script.done, script.done);
    }
    if (script.bytes + length > script.bytes_room) {
        script.bytes_room = 2 * script.bytes_room + 4096;
        script.input = room_for(script.bytes_room, script.input);
        script.output = room_for(script.bytes_room, script.output);
    }
}

/* The transaction's bytes, and the ticks that pass after it. */
static void add_step(const uint8_t *sent, size_t length, unsigned ticks)
{
    make_room(length);
    memcpy(script.input + script.bytes, sent, length);
    script.lengths[script.steps] = (uint16_t)length;
    script.ticks[script.steps] = (uint16_t)ticks;
    script.bytes += length;
    script.steps++;
}

static void add_enable(void)
{
    static const uint8_t enable[] = {WRITE_ENABLE};

    add_step(enable, sizeof enable, 0);
}

/* Gives the number of address bytes. */
static size_t put_address(uint8_t *sent, size_t address)
{
    size_t count = blocks == LARGE ? 4 : 3, i;

    for (i = 0; i < count; i++)
        sent[i] = (uint8_t)(address >> 8 * (count - 1 - i));
    return count;
}

static void add_erase(size_t address, unsigned ticks)
{
    uint8_t sent[5] = {blocks == LARGE ? SECTOR_ERASE_FAR : SECTOR_ERASE};

    add_step(sent, 1 + put_address(sent + 1, address), ticks);
    script.erases++;
}

/* A tick for each byte. */
static void add_program(size_t address, size_t length)
{
    uint8_t sent[5 + PAGE_BYTES] = {blocks == LARGE ? PAGE_PROGRAM_FAR : PAGE_PROGRAM};
    size_t head = 1 + put_address(sent + 1, address);

    memcpy(sent + head, image + address, length);
    add_step(sent, head + length, (unsigned)length);
    script.programs++;
}

/* ---- The flasher ---- */

/* How a flasher goes about it. All but the first are wrong. */
struct flasher {
    const char *name;
    unsigned erase_ticks;
    int erases, enables_programs, knows_pages, waits_at_the_end;
};

static const struct flasher right = {"a right flasher", ERASE_TICKS, 1, 1, 1, 1};

static const struct flasher wrong[] = {
    {"a flasher that sends 06h before the first program alone", ERASE_TICKS, 1, 0, 1, 1},
    {"a flasher that waits 15 ticks for an erase", ERASE_TICKS - 1, 1, 1, 1, 1},
    {"a flasher that does not wait for its last program", ERASE_TICKS, 1, 1, 1, 0},
    {"a flasher that knows no pages", ERASE_TICKS, 1, 1, 0, 1},
    {"a flasher that does not erase", ERASE_TICKS, 0, 1, 1, 1},
    {"a flasher that waits 5000 ticks for an erase", 5000, 1, 1, 1, 1},
};

/* A program only clears bits. */
static int needs_erase(size_t sector)
{
    size_t at;

    for (at = sector; at < sector + SECTOR_BYTES; at++)
        if ((image[at] & ~start[at]) != 0)
            return 1;
    return 0;
}

/* What an address holds when the erases are done. */
static uint8_t held(size_t address, int erased)
{
    return erased ? 0xFF : start[address];
}

static void erase_sectors(const struct flasher *flasher)
{
    size_t sector;

    for (sector = 0; sector < size && flasher->erases; sector += SECTOR_BYTES)
        if (needs_erase(sector)) {
            add_enable();
            add_erase(sector, flasher->erase_ticks);
        }
}

static void program_run(const struct flasher *flasher, size_t from, size_t length)
{
    if (flasher->enables_programs || script.programs == 0)
        add_enable();
    add_program(from, length);
}

/* Each run of bytes that differ, up to the end of its page. */
static void program_sector(const struct flasher *flasher, size_t sector)
{
    int erased = needs_erase(sector);
    size_t at = sector, from;

    while (at < sector + SECTOR_BYTES) {
        for (from = at; at < sector + SECTOR_BYTES && held(at, erased) != image[at]; at++)
            if (at > from && (flasher->knows_pages ? at % PAGE_BYTES == 0 : at - from == PAGE_BYTES))
                break;
        if (at > from)
            program_run(flasher, from, at - from);
        else
            at++;
    }
}

static void build_script(const struct flasher *flasher)
{
    size_t sector;

    empty_script();
    erase_sectors(flasher);
    for (sector = 0; sector < size; sector += SECTOR_BYTES)
        if (memcmp(start + sector, image + sector, SECTOR_BYTES) != 0)
            program_sector(flasher, sector);
    if (!flasher->waits_at_the_end && script.steps > 0)
        script.ticks[script.steps - 1] = 0;
}

/* ---- The check, and what it says ---- */

static uint64_t check_script(void)
{
    return yawlspar_check(record, sizeof record, array, size, rows, sizeof rows, WP_HIGH, script.input, script.bytes,
                          script.lengths, script.steps, script.ticks, script.steps, script.output, script.bytes,
                          script.answers, script.steps, script.done, script.steps, image, size);
}

static const char *words_of(unsigned answer)
{
    switch (answer) {
    case YAWLSPAR_BUSY:
        return "the part is busy";
    case YAWLSPAR_NOT_ENABLED:
        return "WEL is 0";
    case YAWLSPAR_PROTECTED:
        return "the block is protected";
    default:
        return "see answers.c";
    }
}

/* The place of a step in the input. */
static size_t place_of(size_t step)
{
    size_t place = 0, k;

    for (k = 0; k < step; k++)
        place += script.lengths[k];
    return place;
}

static void print_address(size_t address)
{
    printf(blocks == LARGE ? "%08lXh" : "%06lXh", (unsigned long)address);
}

static void print_command(size_t step)
{
    const uint8_t *sent = script.input + place_of(step);
    size_t count = blocks == LARGE ? 4 : 3, address = 0, i;

    printf("%02Xh, ", sent[0]);
    if (sent[0] == WRITE_ENABLE) {
        printf("write enable");
        return;
    }
    for (i = 1; i <= count; i++)
        address = address << 8 | sent[i];
    if (sent[0] == SECTOR_ERASE || sent[0] == SECTOR_ERASE_FAR)
        printf("sector erase at ");
    else
        printf("page program of %u bytes at ", (unsigned)(script.lengths[step] - 1 - count));
    print_address(address);
}

static void print_failing_step(size_t step)
{
    printf("no: step %u fails: ", (unsigned)step);
    print_command(step);
    if (script.answers[step] == YAWLSPAR_EXECUTED)
        printf(": %u ticks are too many for one call\n", script.ticks[step]);
    else
        printf(": the part ignored it, %u, %s\n", script.answers[step], words_of(script.answers[step]));
}

static uint8_t read_status(void)
{
    uint8_t out[2] = {READ_STATUS}, in[sizeof out];

    yawlspar_transact(record, sizeof record, array, size, rows, sizeof rows, WP_HIGH, out, sizeof out, in, sizeof in);
    return in[1];
}

static void print_verdict(uint64_t result)
{
    size_t where = (size_t)YAWLSPAR_WHERE(result);

    if (YAWLSPAR_NUMBER(result) != YAWLSPAR_EXECUTED) {
        printf("the check was refused, %u\n", (unsigned)YAWLSPAR_NUMBER(result));
    } else if (YAWLSPAR_VERDICT(result) == YAWLSPAR_YES) {
        printf("yes: every step was executed, the part is idle, and the array is the image\n");
    } else if (YAWLSPAR_VERDICT(result) == YAWLSPAR_AT_ADDRESS) {
        printf("no: every step was executed and the part is idle, but ");
        print_address(where);
        printf(" holds %02Xh and not %02Xh\n", array[where], image[where]);
    } else if (where == script.steps) {
        printf("no: all %u steps were executed, but the part is not idle, status %02Xh\n", (unsigned)where,
               read_status());
    } else {
        print_failing_step(where);
    }
}

static void print_script(void)
{
    printf("the script: %u erases, %u programs, %u steps, %lu bytes\n", script.erases, script.programs,
           (unsigned)script.steps, (unsigned long)script.bytes);
}

/* The lists are filled as a script fills them: so far as it ran, which is to the end if the answer was yes. */
static void print_ticks(void)
{
    unsigned long asked = 0, done = 0;
    size_t k;

    for (k = 0; k < script.steps; k++) {
        asked += script.ticks[k];
        done += script.done[k];
    }
    printf("%lu of %lu ticks did work\n", done, asked);
}

/* True if the script is accepted. */
static int flash(const struct flasher *flasher, uint8_t status)
{
    uint64_t result;

    power_up(status);
    build_script(flasher);
    print_script();
    result = check_script();
    print_verdict(result);
    if (result == 0)
        print_ticks();
    return result == 0;
}

/* ---- The image that is built in ---- */

/* Sector 0 stays. In sector 1 bits are cleared, sector 2 is replaced, sector 3 was blank, and the last one is to be. */
static void make_content(void)
{
    static const char text[] = "generation";

    make_part(16);
    memset(start, 0x5A, SECTOR_BYTES);
    memset(start + 0x001000, 0xF0, SECTOR_BYTES);
    memset(start + 0x002000, 0x0F, SECTOR_BYTES);
    memset(start + 0x0FF000, 0x00, SECTOR_BYTES);
    memcpy(image, start, size);
    memset(image + 0x0010F0, 0x30, 300);
    memset(image + 0x002000, 0xFF, SECTOR_BYTES);
    memset(image + 0x002000, 0xA5, 1000);
    memcpy(image + 0x003080, text, sizeof text - 1);
    memset(image + 0x0FF000, 0xFF, SECTOR_BYTES);
}

static int flash_built_in(void)
{
    int accepted;
    size_t i;

    make_content();
    printf("%s:\n", right.name);
    accepted = flash(&right, 0x00);
    printf("\nthe same on a part whose block 15 is protected:\n");
    flash(&right, 0x04); /* BP3 to BP0 are 0001, and the last sector lies in block 15 */
    for (i = 0; i < sizeof wrong / sizeof wrong[0]; i++) {
        printf("\n%s:\n", wrong[i].name);
        flash(&wrong[i], 0x00);
    }
    return accepted;
}

/* ---- Images in files ---- */

static void cannot(const char *what, const char *name)
{
    fprintf(stderr, "flasher: %s %s\n", name, what);
    exit(2);
}

/* Gives how many bytes the file has, which is at most `most`. They are read if there is a place for them. */
static size_t read_file(const char *name, uint8_t *bytes, size_t most)
{
    FILE *file = fopen(name, "rb");
    size_t count = 0;

    if (file == NULL)
        cannot("can't be opened", name);
    if (bytes != NULL)
        count = fread(bytes, 1, most, file);
    else
        while (count <= most && fgetc(file) != EOF)
            count++;
    if (ferror(file) || count > most)
        cannot(count > most ? "is larger than the largest part" : "can't be read", name);
    fclose(file);
    return count;
}

/* The smallest part that both files fit in. */
static unsigned blocks_for(size_t bytes)
{
    static const unsigned sizes[] = {1, 4, 8, 16};
    size_t i;

    for (i = 0; i < sizeof sizes / sizeof sizes[0]; i++)
        if (bytes <= (size_t)sizes[i] * BLOCK_BYTES)
            return sizes[i];
    return LARGE;
}

/* What is after the end of NEW stays as it is. */
static int flash_files(const char *new_name, const char *old_name)
{
    const size_t most = (size_t)LARGE * BLOCK_BYTES;
    size_t new_bytes = read_file(new_name, NULL, most);
    size_t old_bytes = old_name == NULL ? 0 : read_file(old_name, NULL, most);

    make_part(blocks_for(new_bytes > old_bytes ? new_bytes : old_bytes));
    if (old_name != NULL)
        read_file(old_name, start, old_bytes);
    memcpy(image, start, size);
    read_file(new_name, image, new_bytes);
    printf("%lu bytes on a part of %u blocks\n", (unsigned long)new_bytes, blocks);
    return flash(&right, 0x00);
}

int main(int argc, char **argv)
{
    if (argc > 3) {
        fprintf(stderr, "usage: flasher [NEW [OLD]]\n");
        return 2;
    }
    if (argc == 1)
        return flash_built_in() ? 0 : 1;
    return flash_files(argv[1], argc == 3 ? argv[2] : NULL) ? 0 : 1;
}
