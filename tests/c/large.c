/* Calls whose results are worked out by hand for the part of 512 blocks: its bank address register, both address
 * lengths, its protection table with TBS, and its ticks. And that the other sizes know none of its codes. The numbers
 * that every size has, and programs during erase suspend, are in directed.c. */
#include "steps.h"

extern void *memcpy(void *, const void *, unsigned long);
extern void *memset(void *, int, unsigned long);

#define LENGTH (REF_LARGE * REF_BLOCK)
#define BANK 0x1000000u
#define EXTADD 0x80u
#define TICKS_MOST 131072u

/* ---- Three ways to send an address ---- */

/* By three bytes with the bank bit, by four with EXTADD, and by a code that always takes four. */
enum way { BY_BANK, BY_EXTADD, BY_CODE, WAYS };

enum operation_name { READ, FAST_READ, PROGRAM, SECTOR, OTHER_SECTOR, HALF_BLOCK, WHOLE_BLOCK, OPERATIONS };

static const struct {
    uint8_t code;      /* three bytes, or four with EXTADD */
    uint8_t four_code; /* four bytes */
    uint32_t bytes;    /* of an erase's unit */
} operations[OPERATIONS] = {
    {0x03, 0x13, 0},    {0x0B, 0x0C, 0},     {0x02, 0x12, 0},     {0xD7, 0x21, 4096},
    {0x20, 0x21, 4096}, {0x52, 0x5C, 32768}, {0xD8, 0xDC, 65536},
};

static void bank_is(uint8_t expected)
{
    sent("\x16\x00\x00", 3, 0, 1);
    output_is(1, expected);
    output_is(2, expected);
    sent("\xC8\x00", 2, 0, 1);
    output_is(0, 0xFF);
    output_is(1, expected);
}

/* Sets the bank address register for this way. The bank bit is the wrong one wherever it must not matter. */
static void choose(enum way way, uint32_t address)
{
    uint8_t bank = address < BANK ? 0 : 1;

    if (way == BY_BANK)
        command_with(0xC5, bank, 0);
    else if (way == BY_EXTADD)
        command_with(0x17, (uint8_t)(EXTADD | (bank ^ 1)), 0);
    else
        command_with(0xC5, (uint8_t)((address & 0x100 ? EXTADD : 0) | (bank ^ 1)), 0);
}

/* Puts down the code and the address. Gives the place behind them. */
static size_t put(uint8_t *bytes, enum way way, enum operation_name name, uint32_t address)
{
    size_t at = 0;

    bytes[at++] = way == BY_CODE ? operations[name].four_code : operations[name].code;
    if (way != BY_BANK)
        bytes[at++] = (uint8_t)(address >> 24);
    bytes[at++] = (uint8_t)(address >> 16);
    bytes[at++] = (uint8_t)(address >> 8);
    bytes[at++] = (uint8_t)address;
    return at;
}

/* Reads so many bytes of what the array has to hold, in the way that was chosen. */
static void reads(enum way way, enum operation_name name, uint32_t address, size_t count)
{
    uint8_t bytes[REF_MOST];
    size_t at = put(bytes, way, name, address), i;

    if (name == FAST_READ)
        bytes[at++] = (uint8_t)(address * 3); /* the dummy byte */
    memset(bytes + at, (int)(address & 0xFF), count);
    sent(bytes, at + count, 0, at);
    for (i = 0; i < at; i++)
        output_is(i, 0xFF);
    for (i = 0; i < count; i++)
        output_is(at + i, stored_byte(address + i));
}

static const uint32_t borders[] = {
    0x0000000, 0x0000001, 0x00000FF, 0x0000100, 0x0FFFEFF, 0x0FFFF00, 0x0FFFFFE, 0x0FFFFFF,
    0x1000000, 0x1000001, 0x10000FF, 0x1000100, 0x1FFFEFF, 0x1FFFF00, 0x1FFFFFE, 0x1FFFFFF,
};

static void fresh(void)
{
    fill_stored();
    powered(REF_LARGE);
}

static void each_way_to_read(void)
{
    static const size_t counts[] = {0, 1, 2, 300};
    enum operation_name name;
    enum way way;
    size_t i, k;

    fresh();
    for (i = 0; i < COUNT(borders); i++)
        for (way = BY_BANK; way < WAYS; way++) {
            choose(way, borders[i]);
            for (name = READ; name <= FAST_READ; name++)
                for (k = 0; k < COUNT(counts); k++)
                    reads(way, name, borders[i], counts[k]);
        }
}

/* As long as a transaction may be, over the border of the banks and from the top to 0. The register stays. */
static void long_reads(void)
{
    static const uint32_t from[] = {BANK - 1, BANK - 2000, LENGTH - 1, LENGTH - 2000, LENGTH - 4000, BANK - 4000};
    enum operation_name name;
    enum way way;
    size_t i;

    fresh();
    for (i = 0; i < COUNT(from); i++)
        for (way = BY_BANK; way < WAYS; way++) {
            choose(way, from[i]);
            for (name = READ; name <= FAST_READ; name++)
                reads(way, name, from[i], REF_MOST - 4 - (way != BY_BANK) - (name == FAST_READ));
            if (way == BY_BANK)
                bank_is(from[i] < BANK ? 0x00 : 0x01);
        }
}

/* The seven high bits of the fourth address byte do not matter. */
static void bits_above(void)
{
    uint32_t high, i;

    fresh();
    for (i = 0; i < 2; i++) {
        const uint32_t address = i == 0 ? BANK - 1 : BANK;

        for (high = 0; high < 256; high += high == 0 ? 2 : high) {
            reads(BY_CODE, READ, high << 24 | address, 3);
            reads(BY_CODE, FAST_READ, (254 - high) << 24 | address, 3);
            choose(BY_EXTADD, address);
            reads(BY_EXTADD, READ, (254 - high) << 24 | address, 3);
            reads(BY_EXTADD, FAST_READ, high << 24 | address, 3);
        }
    }
}

/* ---- Programs and erases ---- */

static const uint8_t data[] = {0x5A, 0xC3, 0x81, 0x3C, 0x0F};

static void begin_program(enum way way, uint32_t address)
{
    uint8_t bytes[5 + sizeof data];
    size_t at = put(bytes, way, PROGRAM, address);

    memcpy(bytes + at, data, sizeof data);
    command("\x06", 1, 0);
    command(bytes, at + sizeof data, 0);
}

/* A tick of that program. */
static void program_tick(uint32_t address, uint32_t tick)
{
    uint32_t place = address - address % REF_PAGE + (address + tick) % REF_PAGE;

    ticked(1, 0, 1);
    *change_stored(place, 1) &= data[tick];
    array_is_as_stored();
}

/* Tick by tick, suspended and read in the midst. */
static void programs(void)
{
    enum way way;
    size_t i;
    uint32_t tick;

    for (way = BY_BANK; way < WAYS; way++)
        for (i = 0; i < COUNT(borders); i++) {
            fresh();
            choose(way, borders[i]);
            begin_program(way, borders[i]);
            for (tick = 0; tick < sizeof data; tick++) {
                status_is(WEL | WIP);
                program_tick(borders[i], tick);
                if (tick == 2) {
                    command("\x75", 1, 0);
                    registers_are(0x00, PSUS, 0x10);
                    reads(way, READ, borders[i], 6);
                    reads(BY_CODE, READ, borders[i] - borders[i] % REF_PAGE, REF_PAGE);
                    command_with(0xC5, 0x00, 23);
                    command("\x06", 1, 23);
                    command("\x7A", 1, 0);
                }
            }
            status_is(0x00);
            ticked(TICKS_MOST, 0, 0);
            reads(way, READ, borders[i], 6);
        }
}

/* What a slip would take for data, or for the address: with EXTADD the fourth byte is address, without it is data. */
static void where_data_begins(void)
{
    fresh();
    command("\xB7", 1, 0);
    command("\x06", 1, 0);
    command("\x02\x01\x02\x03\x04", 5, 24);
    command("\x02\x01\x02\x03\x04\x00", 6, 0);
    ticked(3, 0, 1);
    *change_stored(0x1020304, 1) = 0x00;
    array_is_as_stored();
    command("\x29", 1, 0);
    command("\x06", 1, 0);
    command("\x02\x01\x02\x03\x04\x00", 6, 0);
    ticked(3, 0, 2);
    *change_stored(0x0010203, 1) &= 0x04;
    *change_stored(0x0010204, 1) = 0x00;
    array_is_as_stored();
    whole_array_is_as_stored();
}

/* The last 256 of many bytes count: as many as a transaction has room for. */
static void longest_programs(void)
{
    uint8_t bytes[REF_MOST];
    enum way way;
    size_t at, i;
    uint32_t address = 0x1FFFF30;

    for (way = BY_BANK; way < WAYS; way++) {
        fresh();
        choose(way, address);
        at = put(bytes, way, PROGRAM, address);
        for (i = at; i < REF_MOST; i++)
            bytes[i] = (uint8_t)(i * 7);
        for (i = REF_MOST - REF_PAGE; i < REF_MOST; i++)
            *change_stored(0x1FFFF00 + (0x30 + i - at) % REF_PAGE, 1) &= bytes[i];
        command("\x06", 1, 0);
        command(bytes, REF_MOST, 0);
        ticked(255, 0, 255);
        status_is(WEL | WIP);
        ticked(TICKS_MOST, 0, 1);
        array_is_as_stored();
    }
}

/* The unit that holds the address; suspended after some ticks and read in the midst, and resumed. */
static void erased_at(enum way way, enum operation_name name, uint32_t address)
{
    uint8_t bytes[5];
    size_t at = put(bytes, way, name, address);
    uint32_t unit = operations[name].bytes, base = address - address % unit, pages = unit / REF_PAGE;

    fresh();
    choose(way, address);
    command("\x06", 1, 0);
    command(bytes, at, 0);
    ticked(7, 0, 7);
    memset(change_stored(base, 7 * REF_PAGE), 0xFF, 7 * REF_PAGE);
    array_is_as_stored();
    command("\xB0", 1, 0);
    registers_are(0x00, ESUS, 0x10);
    reads(way, READ, base + 6 * REF_PAGE, 2 * REF_PAGE);
    reads(BY_CODE, FAST_READ, base + unit - 2, 4);
    command("\xB7", 1, 23);
    ticked(TICKS_MOST, 0, 0);
    command("\x30", 1, 0);
    ticked(TICKS_MOST, 0, pages - 7);
    memset(change_stored(base, unit), 0xFF, unit);
    array_is_as_stored();
    registers_are(0x00, 0x00, 0x10);
    reads(BY_CODE, READ, base + unit - 2, 4);
}

static void erases(void)
{
    static const uint32_t addresses[] = {0x0000000, 0x0FFFFFF, 0x1000000, 0x1FFFFFF, 0x100FFFF, 0x0FF7FFF};
    enum operation_name name;
    enum way way;
    size_t i;

    for (way = BY_BANK; way < WAYS; way++)
        for (name = SECTOR; name <= WHOLE_BLOCK; name++)
            for (i = 0; i < COUNT(addresses); i++)
                erased_at(way, name, addresses[i]);
    whole_array_is_as_stored();
}

/* ---- Chip erase ---- */

static void all_is_erased(void)
{
    memset(change_stored(0, LENGTH), 0xFF, LENGTH);
    whole_array_is_as_stored();
    status_is(0x00);
    ticked(TICKS_MOST, 0, 0);
}

/* 131,072 ticks finish it; one more asked: 6, none done. */
static void chip_erase_at_once(void)
{
    static const uint64_t too_many[] = {TICKS_MOST + 1, (UINT64_C(1) << 32) + 1, (UINT64_C(1) << 32) + TICKS_MOST,
                                        UINT64_C(1) << 63, UINT64_MAX};
    size_t i;

    fresh();
    command("\x06", 1, 0);
    command("\xC7", 1, 0);
    for (i = 0; i < COUNT(too_many); i++)
        ticked(too_many[i], 6, 0);
    whole_array_is_as_stored();
    status_is(WEL | WIP);
    command("\x75", 1, 25);
    ticked(TICKS_MOST, 0, TICKS_MOST);
    all_is_erased();
}

static void chip_erase_in_pieces(void)
{
    static const uint32_t pieces[] = {1, 255, 256, 4096, 4097, 56831, 1, 65535};
    uint32_t done = 0;
    size_t i;

    fresh();
    command_with(0xC5, 0x81, 0);
    command("\x06", 1, 0);
    command("\x60", 1, 0);
    for (i = 0; i < COUNT(pieces); i++) { /* 65,536 of them reach the border of the banks */
        ticked(pieces[i], 0, pieces[i]);
        memset(change_stored(done * REF_PAGE, pieces[i] * REF_PAGE), 0xFF, pieces[i] * REF_PAGE);
        done += pieces[i];
        whole_array_is_as_stored();
        status_is(done < TICKS_MOST ? WEL | WIP : 0x00);
    }
    ticked(TICKS_MOST, 0, TICKS_MOST - done);
    bank_is(0x81);
    all_is_erased();
}

/* A reset drops it: what is done stays done. */
static void chip_erase_cut(void)
{
    fresh();
    command("\x06", 1, 0);
    command("\xC7", 1, 0);
    ticked(65537, 0, 65537);
    reset();
    memset(change_stored(0, 65537 * REF_PAGE), 0xFF, 65537 * REF_PAGE);
    whole_array_is_as_stored();
    ticked(TICKS_MOST, 0, 0);
    status_is(0x00);
}

/* ---- The bank address register ---- */

/* Bits 7 and 0 of any byte, by both codes, at once and whatever WEL, which stays. */
static void bank_writes(void)
{
    uint32_t value, enabled;

    powered(REF_LARGE);
    bank_is(0x00);
    for (enabled = 0; enabled < 2; enabled++) {
        command(enabled ? "\x06" : "\x04", 1, 0);
        for (value = 0; value < 256; value++) {
            command_with(value % 3 ? 0x17 : 0xC5, (uint8_t)value, 0);
            bank_is(value & 0x81);
            ticked(1, 0, 0);
            registers_are(enabled ? WEL : 0x00, 0x00, 0x10);
            command("\xB7", 1, 0);
            bank_is(0x80 | (value & 0x01));
            command("\x29", 1, 0);
            bank_is(value & 0x01);
            status_is(enabled ? WEL : 0x00);
        }
    }
    sent_at(0, "\xC5\x81", 2, 0, 2);
    bank_is(0x81);
}

struct known {
    uint8_t length;
    uint8_t bytes[7];
    uint8_t number; /* idle, with WEL 0 */
};

/* Each code of 512 blocks alone, right and wrong length. */
static const struct known new_codes[] = {
    {1, {0x16}, 0},                    {2, {0x16, 0}, 0},             {1, {0xC8}, 0},
    {3, {0xC8, 0, 0}, 0},              {2, {0x17, 0x81}, 0},          {1, {0x17}, 24},
    {3, {0x17, 0, 0}, 24},             {2, {0xC5, 0x01}, 0},          {1, {0xC5}, 24},
    {3, {0xC5, 0, 0}, 24},             {1, {0xB7}, 0},                {2, {0xB7, 0}, 24},
    {1, {0x29}, 0},                    {2, {0x29, 0}, 24},            {5, {0x13, 0, 0, 0, 0}, 0},
    {7, {0x13, 1, 0, 0, 0, 0, 0}, 0},  {4, {0x13, 0, 0, 0}, 24},      {1, {0x13}, 24},
    {6, {0x0C, 0, 0, 0, 0, 0}, 0},     {5, {0x0C, 0, 0, 0, 0}, 24},   {1, {0x0C}, 24},
    {6, {0x12, 1, 0, 0, 0, 0}, 26},    {7, {0x12, 1}, 26},            {5, {0x12, 0, 0, 0, 0}, 24},
    {1, {0x12}, 24},                   {5, {0x21, 1, 0, 0, 0}, 26},   {4, {0x21, 0, 0, 0}, 24},
    {6, {0x21, 1, 0, 0, 0, 0}, 24},    {5, {0x5C, 1, 0, 0, 0}, 26},   {4, {0x5C, 0, 0, 0}, 24},
    {6, {0x5C, 1, 0, 0, 0, 0}, 24},    {5, {0xDC, 1, 0, 0, 0}, 26},   {4, {0xDC, 0, 0, 0}, 24},
    {6, {0xDC, 1, 0, 0, 0, 0}, 24},
};

static bool is_a_new_read(uint8_t code)
{
    return code == 0x16 || code == 0xC8 || code == 0x13 || code == 0x0C;
}

/* Sends it, and holds it to a number alone: what a read drives is looked at elsewhere. */
static void answers(const struct known *known, uint64_t number)
{
    struct call call = fitting(TRANSACT);
    uint64_t got;

    memcpy(message, known->bytes, known->length);
    call.input = call.output = known->length;
    got = YAWLSPAR_NUMBER(step(&call));
    if (got != number)
        fail(&call, "the number", number, got);
}

static void all_answer(uint64_t number)
{
    size_t i;

    for (i = 0; i < COUNT(new_codes); i++)
        answers(&new_codes[i], number);
}

/* While suspended the reads are taken, and no other. */
static void reads_alone_are_taken(void)
{
    size_t i;

    for (i = 0; i < COUNT(new_codes); i++)
        answers(&new_codes[i], is_a_new_read(new_codes[i].bytes[0]) ? new_codes[i].number : 23);
}

static const struct {
    uint8_t length;
    uint8_t bytes[6];
    bool suspends;
    uint32_t ticks;
} begun[] = {
    {6, {0x02, 1, 0, 0, 0, 0}, true, 1},    {6, {0x12, 0, 0, 0, 0, 0}, true, 1},
    {5, {0x20, 1, 0, 0, 0}, true, 16},      {5, {0x21, 0, 0, 0, 0}, true, 16},
    {5, {0x5C, 1, 0xFF, 0, 0}, true, 128},  {5, {0xDC, 1, 0xFF, 0, 0}, true, 256},
    {1, {0xC7}, false, 131072},             {4, {0x64, 0, 0x10, 0}, false, 1},
    {5, {0x62, 0, 0x10, 0, 0}, false, 1},   {2, {0x01, 0x00}, false, 1},
    {2, {0x42, 0x00}, false, 1},            {2, {0x85, 0x00}, false, 1},
};

/* Idle, busy with each operation, suspended from each that can be, asleep; with EXTADD 1 and the bank bit 1. */
static void new_codes_in_each_state(void)
{
    size_t i;

    powered(REF_LARGE);
    for (i = 0; i < COUNT(new_codes); i++) {
        command_with(0xC5, 0x00, 0);
        answers(&new_codes[i], new_codes[i].number);
    }
    command_with(0xC5, 0x81, 0);
    for (i = 0; i < COUNT(begun); i++) {
        command("\x06", 1, 0);
        command(begun[i].bytes, begun[i].length, 0);
        all_answer(22);
        command("\x75", 1, begun[i].suspends ? 0 : 25);
        if (begun[i].suspends) {
            reads_alone_are_taken();
            bank_is(0x81);
            command("\x7A", 1, 0);
        }
        ticked(TICKS_MOST, 0, begun[i].ticks);
        bank_is(0x81);
        status_is(0x00);
    }
    command("\xB9", 1, 0);
    all_answer(21);
    command_with(0x18, 0x00, 20);
    command("\xAB", 1, 0);
    bank_is(0x81);
    forget_stored();
}

/* Each disarms, whatever it is answered with; ticks that are refused do not. */
static void new_codes_disarm(void)
{
    size_t i;

    powered(REF_LARGE);
    for (i = 0; i < COUNT(new_codes); i++) {
        command("\x66", 1, 0);
        answers(&new_codes[i], new_codes[i].number);
        command("\x99", 1, 25);
    }
    command_with(0xC5, 0x81, 0);
    command("\x66", 1, 0);
    ticked(TICKS_MOST + 1, 6, 0);
    command("\x99", 1, 0);
    bank_is(0x00);
}

/* Reset and power-up clear both bits, busy or suspended too; sleep keeps them. Three bytes reach bank 0 again. */
static void cleared_and_kept(void)
{
    static const uint8_t values[] = {0x01, 0x80, 0x81};
    size_t i, k;

    fresh();
    for (i = 0; i < COUNT(values); i++) {
        command_with(0x17, values[i], 0);
        command("\xB9", 1, 0);
        ticked(1, 0, 0);
        command("\xAB", 1, 0);
        bank_is(values[i]);
        reset();
        bank_is(0x00);
        reads(BY_BANK, READ, 0x000123, 2);
        for (k = 0; k < 4; k++) {
            command_with(0xC5, values[i], 0);
            command("\x06", 1, 0);
            command("\x21\x01\x00\x00\x00", 5, 0);
            if (k % 2 == 1)
                command("\x75", 1, 0);
            if (k < 2)
                reset();
            else
                powered(REF_LARGE);
            bank_is(0x00);
            registers_are(0x00, 0x00, 0x10);
            reads(BY_BANK, FAST_READ, 0x000123, 2);
        }
    }
}

/* ---- Lengths ---- */

/* The codes that take three or four address bytes by EXTADD, and those that keep three: the least length with EXTADD
 * 0 and 1, and whether it is the only one. */
static const struct {
    uint8_t code, least[2];
    bool only, needs_wel;
} lengths[] = {
    {0x03, {4, 5}, false, false}, {0x0B, {5, 6}, false, false}, {0x02, {5, 6}, false, true},
    {0xD7, {4, 5}, true, true},   {0x20, {4, 5}, true, true},   {0x52, {4, 5}, true, true},
    {0xD8, {4, 5}, true, true},   {0x13, {5, 5}, false, false}, {0x0C, {6, 6}, false, false},
    {0x12, {6, 6}, false, true},  {0x21, {5, 5}, true, true},   {0x5C, {5, 5}, true, true},
    {0xDC, {5, 5}, true, true},   {0x68, {5, 5}, false, false}, {0x62, {5, 5}, false, true},
    {0x64, {4, 4}, true, true},   {0x90, {4, 4}, false, false},
};

/* With WEL 0, so that nothing begins. */
static void each_length(void)
{
    uint8_t bytes[10] = {0};
    uint32_t bank;
    size_t i, length;

    powered(REF_LARGE);
    for (bank = 0; bank < 4; bank++) {
        command_with(0xC5, (uint8_t)((bank & 2 ? EXTADD : 0) | (bank & 1)), 0);
        for (i = 0; i < COUNT(lengths); i++)
            for (length = 1; length <= sizeof bytes; length++) {
                uint8_t least = lengths[i].least[bank / 2];
                bool right = lengths[i].only ? length == least : length >= least;

                bytes[0] = lengths[i].code;
                if (!right)
                    command(bytes, length, 24);
                else if (lengths[i].needs_wel)
                    command(bytes, length, 26);
                else
                    sent(bytes, length, 0, least);
            }
    }
}

/* Rows and identity take three address bytes, whatever EXTADD is. */
static void rows_and_identity(void)
{
    uint32_t bank;

    powered(REF_LARGE);
    for (bank = 0; bank < 2; bank++) {
        command_with(0xC5, bank ? 0x81 : 0x00, 0);
        command("\x06", 1, 0);
        command("\x64\x00\x20\x00\x00", 5, 24);
        command("\x64\x00\x20\x00", 4, 0);
        ticked(2, 0, 1);
        command("\x06", 1, 0);
        command("\x62\x00\x00\x20\x00\x11", 6, 0); /* row 0, not row 2: two bytes */
        ticked(4, 0, 2);
        command("\x06", 1, 0);
        command("\x62\x00\x20\xFF\x3C\xC3", 6, 0);
        ticked(4, 0, 2);
        sent("\x68\x00\x20\xFE\x00\x00\x00\x00\x00", 9, 0, 5);
        output_is(5, 0xFF);
        output_is(6, 0x3C);
        output_is(7, 0xC3);
        output_is(8, 0xFF);
        command("\x68\x00\x00\x02\x00", 5, 0);
        command("\x68\x00\x02\x00\x00", 5, 27);
        command("\x68\x01\x00\x20\x00\x00", 6, 27);
        sent("\x90\x00\x00\x01\x00\x00", 6, 0, 4);
        output_is(4, 0x44);
        output_is(5, 0x11);
        sent("\x90\x00\x01\x00\x01\x00", 6, 0, 4);
        output_is(4, 0x11);
        output_is(5, 0x44);
        sent("\xAB\x00\x00\x00\x00", 5, 0, 4);
        output_is(4, 0x44);
    }
}

/* ---- Protection ---- */

/* A program or an erase, sent in this way to a part with these registers, has this number; 28 sets its error bits. */
static void write_is(enum way way, enum operation_name name, uint8_t status, uint8_t function, uint32_t address,
                     uint64_t number)
{
    uint8_t bytes[6] = {0};
    size_t at = put(bytes, way, name, address) + (name == PROGRAM ? 1 : 0);

    powered_with(REF_LARGE, status, function, 0);
    choose(way, address);
    command("\x06", 1, 0);
    command(bytes, at, number);
    if (number == 28)
        registers_are(status | WEL, function, 0x10 | PROT_E | (name == PROGRAM ? P_ERR : E_ERR));
    else
        registers_are(status | WEL | WIP, function, 0x10 | WIP);
}

static void block_is(uint32_t code, uint8_t function, uint32_t block, bool barred)
{
    uint32_t base = block * REF_BLOCK, last = base + REF_BLOCK - 1;
    enum operation_name name;
    enum way way;

    for (way = BY_BANK; way < WAYS; way++)
        for (name = PROGRAM; name <= WHOLE_BLOCK; name++)
            write_is(way, name, (uint8_t)(code * 4), function, (code + name + way) % 2 ? base : last, barred ? 28 : 0);
}

/* Chip erase goes by the code itself. */
static void chip_erase_is(uint32_t code, uint8_t function)
{
    powered_with(REF_LARGE, (uint8_t)(code * 4), function, 0);
    command("\x06", 1, 0);
    command(code % 2 ? "\xC7" : "\x60", 1, code == 0 ? 0 : 28);
    shows(code == 0 ? 0x10 | WIP : 0x10 | E_ERR | PROT_E);
}

/* By each code and TBS, the protected blocks at the borders, and those beside them. */
static void protection(void)
{
    uint32_t tbs, code, block;

    for (tbs = 0; tbs < 2; tbs++)
        for (code = 0; code < 16; code++) {
            uint64_t first = yawlspar_protected_first(code + 16 * tbs, REF_LARGE);
            uint64_t count = yawlspar_protected_count(code + 16 * tbs, REF_LARGE), end = first + count;

            for (block = 0; block < REF_LARGE; block++)
                if (block % 255 < 2 || block >= 510 || block == first || block + 1 == first || block == end ||
                    block + 1 == end)
                    block_is(code, tbs ? TBS : 0x00, block, block >= first && block < end);
            chip_erase_is(code, tbs ? TBS : 0x00);
        }
}

/* TBS: 48h shows it; neither 42h nor reset, sleep or suspend changes it. */
static void tbs_stays(void)
{
    uint32_t tbs, value;

    for (tbs = 0; tbs < 2; tbs++) {
        uint8_t shown = tbs ? TBS : 0x00;

        powered_with(REF_LARGE, 0, shown, 0);
        for (value = 0; value < 256; value++) {
            command("\x06", 1, 0);
            command_with(0x42, (uint8_t)value, 0);
            ticked(2, 0, 1);
            shown |= value & 0xF0;
            registers_are(0x00, shown, 0x10);
        }
        reset();
        command("\xB9", 1, 0);
        command("\xAB", 1, 0);
        registers_are(0x00, shown, 0x10);
        command("\x06", 1, 0);
        command("\x21\x00\x00\x00\x00", 5, 0);
        command("\x75", 1, 0);
        registers_are(0x00, shown | ESUS, 0x10);
        command("\x7A", 1, 0);
        registers_are(WEL | WIP, shown, 0x10 | WIP);
        reset();
        registers_are(0x00, shown, 0x10);
    }
    forget_stored();
}

/* ---- The other sizes ---- */

/* 20 idle, busy, suspended and asleep. 4,097 ticks are refused there, and three address bytes are taken. */
static void unknown_on(uint32_t blocks)
{
    powered(blocks);
    all_answer(20);
    command("\x06", 1, 0);
    all_answer(20);
    status_is(WEL);
    sent("\x03\x00\x00\x00\x00", 5, 0, 4);
    command("\xD7\x00\x00\x00\x00", 5, 24);
    command("\x02\x00\x00\x00\xFF\xFF", 6, 0);
    all_answer(20);
    command("\x75", 1, 0);
    all_answer(20);
    command("\x7A", 1, 0);
    ticked(4097, 6, 0);
    ticked(131072, 6, 0);
    ticked(4096, 0, 2);
    command("\xB9", 1, 0);
    all_answer(20);
    command("\xAB", 1, 0);
    command("\x66", 1, 0);
    command("\xB7", 1, 20);
    command("\x99", 1, 25);
}

void large_calls(void)
{
    static const uint32_t old[] = {1, 4, 8, 16};
    size_t i;

    for (i = 0; i < COUNT(old); i++) {
        begin_run("codes of 512 blocks", i, old[i]);
        unknown_on(old[i]);
        end_run();
    }
    begin_run("512 blocks", 0, REF_LARGE);
    forget_stored();
    each_way_to_read();
    long_reads();
    bits_above();
    programs();
    where_data_begins();
    longest_programs();
    erases();
    bank_writes();
    each_length();
    rows_and_identity();
    new_codes_disarm();
    cleared_and_kept();
    whole_array_is_as_stored();
    protection();
    tbs_stays();
    new_codes_in_each_state();
    chip_erase_at_once();
    chip_erase_in_pieces();
    chip_erase_cut();
    end_run();
}
