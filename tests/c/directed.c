/* Calls whose numbers are worked out by hand from the specification: 1 to 6 in each call that can give them,
 * the lowest where several apply, and the cases 12 and 13 that it works on paper. And 28, in the blocks that
 * yawlspar_protected_first and yawlspar_protected_count name, and what the extended read register tells of it. And
 * the programs that run during erase suspend. All of it is on each size; what is of 512 blocks alone is in large.c. */
#include "steps.h"

extern void *memcpy(void *, const void *, unsigned long);
extern void *memset(void *, int, unsigned long);

static const uint64_t no_bytes[] = {256, 257, UINT64_C(1) << 32, UINT64_C(1) << 63, UINT64_MAX};
static const uint64_t sizes[] = {1, 4, 8, 16, REF_LARGE};
static const size_t no_records[] = {0, 1, YAWLSPAR_RECORD_BYTES - 1, YAWLSPAR_RECORD_BYTES + 1, RECORD_ROOM};

/* ---- Power-up: 1, 5 ---- */

static void power_up_sizes(void)
{
    static const uint64_t no_sizes[] = {
        0, 2, 3, 5, 6, 7, 9, 15, 17, 32, 64, 256, 257, 272, 511, 513, 514, 528, 768, 1024, 65536 + 1, 65536 + 512,
        131072, (UINT64_C(1) << 32) + 1, (UINT64_C(1) << 32) + 512, (UINT64_C(1) << 63) + 512, UINT64_MAX};
    size_t i;

    for (i = 0; i < COUNT(no_sizes); i++) {
        struct call call = fitting(POWER_UP);

        call.blocks = no_sizes[i];
        number_is(&call, 1);
        call.status = 0x03; /* and 5 */
        call.function = 0x0F;
        call.extended = 0x1F;
        call.maker = 256;
        call.record = 0;
        number_is(&call, 1);
    }
}

/* Function bits 3..0 are zero, but for the TBS of 512 blocks. */
static bool function_is_good(uint32_t blocks, uint64_t value)
{
    return (value & (blocks == REF_LARGE ? 0x0D : 0x0F)) == 0;
}

static void power_up_registers(uint32_t blocks)
{
    uint64_t value;

    for (value = 0; value < 256; value++) {
        struct call status = fitting(POWER_UP), function = fitting(POWER_UP), extended = fitting(POWER_UP);

        status.status = value;
        function.function = value;
        extended.extended = value;
        number_is(&status, value % 4 == 0 ? 0 : 5);
        number_is(&function, function_is_good(blocks, value) ? 0 : 5);
        number_is(&extended, value % 32 == 0 ? 0 : 5);
    }
}

static void power_up_numbers_that_fit_no_byte(void)
{
    size_t i, k;

    for (i = 0; i < COUNT(no_bytes); i++)
        for (k = 0; k < 7; k++) {
            struct call call = fitting(POWER_UP);
            uint64_t *const numbers[7] = {&call.maker,  &call.type,     &call.capacity, &call.device,
                                          &call.status, &call.function, &call.extended};

            *numbers[k] = no_bytes[i];
            number_is(&call, 5);
        }
}

static void power_up_numbers(uint32_t blocks)
{
    size_t i;

    power_up_sizes();
    power_up_registers(blocks);
    power_up_numbers_that_fit_no_byte();
    for (i = 0; i < COUNT(no_records); i++) {
        struct call call = fitting(POWER_UP);

        call.record = no_records[i];
        number_is(&call, 5);
        call.function = TBS;
        number_is(&call, 5);
    }
}

/* ---- Transaction: 1, 2, 3, 4, 5 ---- */

/* A status read of two bytes. */
static struct call status_read(void)
{
    struct call call = fitting(TRANSACT);

    message[0] = 0x05;
    message[1] = 0x00;
    call.input = call.output = 2;
    return call;
}

static const struct {
    size_t array_over; /* how much longer than right the array is */
    size_t rows, input, output;
    uint64_t wp_high, number;
} transact_rows[] = {
    {0, 1024, 2, 2, 0, 0},       {0, 1024, 2, 2, 1, 0},
    {1, 1024, 2, 2, 1, 1},       {1, 0, 0, 1, 2, 1},
    {65536, 1024, 2, 2, 1, 1},   {0, 1023, 2, 2, 1, 2},
    {0, 1025, 2, 2, 1, 2},       {0, 0, 2, 2, 1, 2},
    {0, 2048, 0, 1, 2, 2},       {0, 256, 4097, 1, 2, 2},
    {0, 1024, 0, 0, 1, 3},       {0, 1024, 4097, 4097, 1, 3},
    {0, 1024, 0, 2, 2, 3},       {0, 1024, 8192, 1, 2, 3},
    {0, 1024, 2, 1, 1, 4},       {0, 1024, 2, 3, 1, 4},
    {0, 1024, 2, 0, 1, 4},       {0, 1024, 4096, 4097, 1, 4},
    {0, 1024, 2, 3, 2, 4},       {0, 1024, 2, 2, 2, 5},
    {0, 1024, 2, 2, 256, 5},     {0, 1024, 2, 2, UINT64_C(1) << 32, 5},
    {0, 1024, 2, 2, (UINT64_C(1) << 32) + 1, 5}, {0, 1024, 2, 2, UINT64_MAX, 5},
    {0, 1024, 4096, 4096, 1, 0},
};

static void transact_table(void)
{
    size_t i;

    for (i = 0; i < COUNT(transact_rows); i++) {
        struct call call = status_read();

        call.array += transact_rows[i].array_over;
        call.rows = transact_rows[i].rows;
        call.input = transact_rows[i].input;
        call.output = transact_rows[i].output;
        call.wp_high = transact_rows[i].wp_high;
        result_is(&call, transact_rows[i].number, transact_rows[i].number == 0 ? 1 : 0);
    }
}

/* The array has the length of another size, or is one byte short. */
static void other_arrays(struct call call)
{
    size_t right = call.array, i;

    for (i = 0; i < COUNT(sizes); i++) {
        call.array = sizes[i] * REF_BLOCK;
        if (call.array != right)
            number_is(&call, 1);
    }
    call.array = right - 1;
    number_is(&call, 1);
    call.array = right - REF_BLOCK;
    number_is(&call, 1);
    call.array = right / 2;
    number_is(&call, 1);
    call.array = 0;
    number_is(&call, 1);
}

/* Bytes of another length hold no record: that is 5, where 2, 3 and 4 do not apply. There is no size to judge. */
static void transact_without_record(void)
{
    size_t i;

    for (i = 0; i < COUNT(no_records); i++) {
        struct call call = status_read();

        call.record = no_records[i];
        number_is(&call, 5);
        call.array = 1;
        call.wp_high = 2;
        number_is(&call, 5);
        call.output = call.input + 1;
        number_is(&call, 4);
        call.input = 0;
        number_is(&call, 3);
        call.rows = 1;
        number_is(&call, 2);
    }
}

static void transact_numbers(void)
{
    transact_table();
    other_arrays(status_read());
    transact_without_record();
}

/* ---- Ticks: 1, 2, 5, 6 ---- */

/* The most ticks in a call. */
static uint64_t ticks_most(uint32_t blocks)
{
    return blocks == REF_LARGE ? 131072 : 4096;
}

static const struct {
    size_t array_over, rows;
    uint64_t ticks; /* beyond the most */
    uint64_t number;
} tick_rows[] = {
    {0, 1024, 0, 0},     {1, 1024, 0, 1},     {1, 0, 1, 1},     {65536, 1024, 0, 1},
    {0, 1023, 0, 2},     {0, 1025, 0, 2},     {0, 0, 1, 2},     {0, 1024, 1, 6},
    {0, 1024, 2, 6},     {0, 1024, 65536, 6}, {0, 1024, 126976, 6},
};

/* Great numbers; many would be good if they were cut to 32 bits or fewer. */
static const uint64_t many_ticks[] = {
    UINT64_C(1) << 18, UINT64_C(1) << 31, UINT64_C(1) << 32, (UINT64_C(1) << 32) + 1, (UINT64_C(1) << 32) + 4096,
    (UINT64_C(1) << 32) + 131072, UINT64_C(1) << 63, (UINT64_C(1) << 63) + 1, UINT64_MAX,
};

static void tick_table(uint32_t blocks)
{
    struct call call;
    size_t i;

    for (i = 0; i < COUNT(tick_rows); i++) {
        call = fitting(TICK);
        call.array += tick_rows[i].array_over;
        call.rows = tick_rows[i].rows;
        call.ticks = ticks_most(blocks) + tick_rows[i].ticks;
        number_is(&call, tick_rows[i].number);
    }
    for (i = 0; i < COUNT(many_ticks); i++) {
        call = fitting(TICK);
        call.ticks = many_ticks[i];
        number_is(&call, 6);
    }
    call = fitting(TICK);
    number_is(&call, 0);
    call.ticks = ticks_most(blocks) - 1;
    number_is(&call, 0);
}

static void tick_without_record(void)
{
    size_t i;

    for (i = 0; i < COUNT(no_records); i++) {
        struct call call = fitting(TICK);

        call.record = no_records[i];
        call.ticks = 1;
        number_is(&call, 5);
        call.ticks = 4097;
        number_is(&call, 5);
        call.ticks = 131073;
        number_is(&call, 5);
        call.array = 1;
        number_is(&call, 5);
        call.rows = 1;
        number_is(&call, 2);
    }
}

static void tick_numbers(uint32_t blocks)
{
    tick_table(blocks);
    other_arrays(fitting(TICK));
    tick_without_record();
}

/* ---- Cases ---- */

/* 12: 4,096 ticks finish CER; 4,097 asked: 6, none done. */
static void case_12(void)
{
    sent("\x06", 1, 0, 1);
    sent("\xC7", 1, 0, 1);
    ticked(4097, 6, 0);
    sent("\x05\x00", 2, 0, 1);
    output_is(1, 0x03);
    ticked(4096, 0, 4096);
    sent("\x05\x00", 2, 0, 1);
    output_is(1, 0x00);
}

/* 13: read from 0FFFFFh of two bytes: that byte, then address 0. */
static void case_13(void)
{
    sent("\x06", 1, 0, 1);
    sent("\x02\x0F\xFF\xFF\x5A", 5, 0, 5);
    ticked(1, 0, 1);
    sent("\x06", 1, 0, 1);
    sent("\x02\x00\x00\x00\xC3", 5, 0, 5);
    ticked(4096, 0, 1);
    sent("\x03\x0F\xFF\xFF\x00\x00", 6, 0, 4);
    output_is(3, 0xFF);
    output_is(4, 0x5A);
    output_is(5, 0xC3);
}

/* 90h drives maker and device by bit 0 of the address that was sent. */
static void identity(void)
{
    sent("\x90\x00\x00\x00\x00\x00", 6, 0, 4);
    output_is(4, 0x11);
    output_is(5, 0x44);
    sent("\x90\x00\x00\x01\x00\x00", 6, 0, 4);
    output_is(4, 0x44);
    output_is(5, 0x11);
}

/* ---- Which blocks ---- */

/* A program or an erase at an address, sent with WEL to a part with this status, has this number. */
static void write_is(uint32_t blocks, uint32_t status, uint8_t command, uint32_t address, uint64_t number)
{
    const uint8_t bytes[] = {command, (uint8_t)(address >> 16), (uint8_t)(address >> 8), (uint8_t)address, 0x00};
    size_t length = command == 0x02 ? 5 : command == 0xC7 ? 1 : 4;

    powered_with(blocks, (uint8_t)status, 0, 0);
    sent("\x06", 1, 0, 1);
    sent(bytes, length, number, length);
}

/* Programs and erases are ignored with 28 in the protected blocks and in no other; a chip erase wherever the code is
 * not 0, though 15 protects no block. SRWD and QE do not matter to them. This is on the old sizes. */
static void protected_blocks(uint32_t blocks)
{
    uint32_t code, block;

    for (code = 0; code < 16; code++) {
        uint64_t first = yawlspar_protected_first(code, blocks), count = yawlspar_protected_count(code, blocks);

        for (block = 0; block < blocks; block++) {
            uint64_t number = block >= first && block < first + count ? 28 : 0;
            uint32_t base = block * REF_BLOCK, last = base + REF_BLOCK - 1;

            write_is(blocks, code * 4, 0x02, base, number);
            write_is(blocks, code * 4, 0xD7, last, number);
            write_is(blocks, code * 4 + 0xC0, 0x52, last, number);
            write_is(blocks, code * 4 + 0x40, 0xD8, base, number);
        }
        write_is(blocks, code * 4, 0xC7, 0, code == 0 ? 0 : 28);
    }
}

/* ---- Why a write did nothing ---- */

/* A status whose code bars chip erases and protects none of the blocks that are written below: code 15; of 512
 * blocks, where that protects all, code 1, which protects the top one. */
static uint8_t guard(uint32_t blocks)
{
    return blocks == REF_LARGE ? 1 * 4 : 15 * 4;
}

/* A power-up with that status, row 3 locked and a stored byte, whose bits 7..5 81h shows. Chip erases are ignored, and
 * writes of row 3; all else may be written. */
static void guarded(uint32_t blocks, uint8_t stored)
{
    powered_with(blocks, guard(blocks), 0x80, stored);
}

struct write {
    uint8_t length;
    uint8_t bytes[5];
    uint8_t errors; /* that 28 sets */
};

/* A status whose code protects each block: code 5 on every old size, code 10 on 512 blocks. */
static uint8_t all_barred(uint32_t blocks)
{
    return blocks == REF_LARGE ? 10 * 4 : 5 * 4;
}

/* What that status and the lock of row 3 bar. */
static const struct write barred[] = {
    {4, {0xD7, 0x00, 0x00, 0x00}, E_ERR | PROT_E}, {4, {0x20, 0x0F, 0xFF, 0xFF}, E_ERR | PROT_E},
    {4, {0x52, 0x00, 0x80, 0x00}, E_ERR | PROT_E}, {4, {0xD8, 0xFF, 0xFF, 0xFF}, E_ERR | PROT_E},
    {1, {0xC7}, E_ERR | PROT_E},                   {1, {0x60}, E_ERR | PROT_E},
    {4, {0x64, 0x00, 0x30, 0x00}, E_ERR | PROT_E}, {5, {0x02, 0x00, 0x00, 0x00, 0x00}, P_ERR | PROT_E},
    {5, {0x62, 0x00, 0x30, 0x00, 0x00}, P_ERR | PROT_E},
};

static void is_barred(uint32_t blocks, const struct write *write, uint8_t shown)
{
    command(write->bytes, write->length, 28);
    shows(shown);
    status_is(all_barred(blocks) | WEL); /* WEL is still 1 */
}

/* One after the other: the error bits add up until 82h, which leaves bits 7..5 and WEL. */
static void barred_one_by_one(uint32_t blocks, const struct write *one, const struct write *other)
{
    powered_with(blocks, all_barred(blocks), 0x80, 0xA0); /* clears what the last ones set */
    shows(0xB0);
    command("\x06", 1, 0);
    is_barred(blocks, one, 0xB0 | one->errors);
    is_barred(blocks, other, 0xB0 | one->errors | other->errors);
    is_barred(blocks, one, 0xB0 | one->errors | other->errors);
    command("\x82", 1, 0);
    shows(0xB0);
    status_is(all_barred(blocks) | WEL);
    is_barred(blocks, other, 0xB0 | other->errors);
    command_with(0x83, 0x5F, 0);
    shows(0x50 | other->errors);
    command("\x66", 1, 0);
    is_barred(blocks, one, 0x50 | one->errors | other->errors);
    command("\x99", 1, 25); /* 28 disarms */
}

static void all_that_is_barred(uint32_t blocks)
{
    size_t i, j;

    for (i = 0; i < COUNT(barred); i++)
        for (j = 0; j < COUNT(barred); j++)
            barred_one_by_one(blocks, &barred[i], &barred[j]);
}

/* Sets all three error bits of a guarded part, whose WEL is 1 afterwards. */
static void fail_both(void)
{
    command("\x06", 1, 0);
    command("\x60", 1, 28);
    command("\x62\x00\x30\x00\x00", 5, 28);
}

/* Neither a status write that the pin bars, nor a row address that is not valid, nor any lower number. */
static void what_sets_no_error(uint32_t blocks)
{
    guarded(blocks, 0x00);
    command("\xC7", 1, 26);
    command("\x02\x00\x00\x00", 4, 24);
    command("\x84", 1, 20);
    command("\x06", 1, 0);
    command("\x62\x00\x31\x00\x00", 5, 27);
    command("\x64\x01\x30\x00", 4, 27);
    command("\x68\x00\x40\x00\x00", 5, 27);
    command("\x64\x00\x30", 3, 24);
    shows(0x10);
    command("\x01\x80", 2, 0);
    ticked(1, 0, 1);
    command("\x06", 1, 0);
    sent_at(0, "\x01\x00", 2, 28, 2);
    shows(0x10);
    status_is(0x82);
    sent_at(0, "\x42\x80", 2, 0, 2);
    ticked(1, 0, 1);
    shows(0x10);
}

/* The begun writes of a guarded part. */
static const struct {
    uint8_t length;
    uint8_t bytes[5];
    bool suspends;
    uint16_t ticks;
} begun[] = {
    {5, {0x02, 0x00, 0x01, 0x00, 0xFF}, true, 1}, {4, {0xD7, 0x00, 0x00, 0x00}, true, 16},
    {4, {0x20, 0x00, 0x10, 0x00}, true, 16},      {4, {0x52, 0x00, 0x80, 0x00}, true, 128},
    {4, {0xD8, 0x00, 0x00, 0x00}, true, 256},     {4, {0x64, 0x00, 0x20, 0x00}, false, 1},
    {5, {0x62, 0x00, 0x00, 0x00, 0xFF}, false, 1}, {2, {0x01, 0x3C}, false, 1},
    {2, {0x42, 0x80}, false, 1},                  {2, {0x85, 0x20}, false, 1},
};

static void sets_and_clear_are(uint64_t number)
{
    command("\x82", 1, number);
    command("\x82\x00", 2, number);
    command("\x83\x40", 2, number);
    command("\x83", 1, number);
    command("\x85\x40", 2, number);
    command("\x85\x40\x00", 3, number);
}

/* Bit 0 follows WIP. The read is taken while busy and suspended, the sets and the clear are not. */
static void shown_while_busy(uint32_t blocks)
{
    size_t i;

    for (i = 0; i < COUNT(begun); i++) {
        guarded(blocks, 0xC0);
        fail_both();
        command(begun[i].bytes, begun[i].length, 0);
        shows(0xC0 + 0x1E + WIP);
        sets_and_clear_are(22);
        command("\x75", 1, begun[i].suspends ? 0 : 25);
        if (begun[i].suspends) {
            shows(0xC0 + 0x1E);
            sets_and_clear_are(23);
            shows(0xC0 + 0x1E);
            command("\x7A", 1, 0);
        }
        shows(0xC0 + 0x1E + WIP);
        ticked(4096, 0, begun[i].ticks);
        shows(0xC0 + 0x1E);
        reset();
        shows(begun[i].bytes[0] == 0x85 ? 0x20 + 0x10 : 0xC0 + 0x10);
    }
}

/* A reset in the midst of a write clears the error bits and loads the stored byte, which an 85h that is dropped has
 * not changed. */
static void reset_while_busy(uint32_t blocks)
{
    size_t i;

    for (i = 0; i < COUNT(begun); i++) {
        guarded(blocks, 0x60);
        fail_both();
        command_with(0x83, 0x80, 0);
        command(begun[i].bytes, begun[i].length, 0);
        if (i % 2 == 0 && begun[i].suspends)
            command("\xB0", 1, 0);
        reset();
        shows(0x60 + 0x10);
        ticked(1, 0, 0);
        reset();
        shows(0x60 + 0x10);
        status_is(guard(blocks));
    }
}

/* A chip erase runs only with code 0. */
static void shown_in_chip_erase(uint32_t blocks)
{
    powered(blocks);
    command("\x06", 1, 0);
    command("\xC7", 1, 0);
    shows(0x10 + WIP);
    sets_and_clear_are(22);
    ticked(ticks_most(blocks), 0, 256 * blocks);
    shows(0x10);
}

/* 83h: bits 7..5 of any byte at once, whatever WEL, which it leaves. */
static void volatile_sets(uint32_t blocks)
{
    uint32_t value;

    guarded(blocks, 0x20);
    for (value = 0; value < 256; value++) {
        command_with(0x83, (uint8_t)value, 0);
        shows((uint8_t)((value & 0xE0) + 0x10));
        if (value == 100)
            command("\x06", 1, 0);
    }
    status_is(guard(blocks) | WEL);
    command("\x83", 1, 24);
    command("\x83\x00\x00", 3, 24);
    shows(0xF0);
    ticked(1, 0, 0);
    reset();
    shows(0x30);
}

/* 85h: bits 7..5 of any byte at its tick, in the stored byte alone; the pin does not bar it. */
static void stored_sets(uint32_t blocks)
{
    uint32_t value;

    powered_with(blocks, 0x80, 0, 0);
    for (value = 0; value < 256; value++) {
        const uint8_t bytes[] = {0x85, (uint8_t)value};

        sent_at(0, bytes, 2, 26, 2);
        command("\x06", 1, 0);
        sent_at(0, bytes, 2, 0, 2);
        status_is(0x83);
        ticked(2, 0, 1);
        status_is(0x80);
        shows(value == 0 ? 0x10 : (uint8_t)(((value - 1) & 0xE0) + 0x10)); /* what the last one stored */
        reset();
        shows((uint8_t)((value & 0xE0) + 0x10));
    }
    command("\x85", 1, 24);
    command("\x85\x00\x00", 3, 24);
    command("\x06", 1, 0);
    command("\x85", 1, 24);
    command("\x85\x00\x00", 3, 24);
    status_is(0x82);
}

/* 82h: the error bits alone, which nothing but it, reset and power-up clears. */
static void clears(uint32_t blocks)
{
    guarded(blocks, 0x20);
    command_with(0x83, 0xE0, 0);
    shows(0xF0);
    command("\x82", 1, 0);
    shows(0xF0);
    status_is(guard(blocks));
    fail_both();
    command("\x82\x00", 2, 24);
    command("\x04", 1, 0);
    command("\x06", 1, 0);
    command("\x84", 1, 20);
    ticked(1, 0, 0);
    shows(0xF0 + 0x0E);
    status_is(guard(blocks) | WEL);
    command("\x82", 1, 0);
    shows(0xF0);
    status_is(guard(blocks) | WEL);
    sent("\x48\x00", 2, 0, 1);
    output_is(1, 0x80);
}

/* The error bits and both bytes outlast sleep; asleep the four codes are ignored. */
static void asleep(uint32_t blocks)
{
    guarded(blocks, 0x40);
    command_with(0x83, 0x80, 0);
    fail_both();
    command("\xB9", 1, 0);
    command("\x81\x00", 2, 21);
    sets_and_clear_are(21);
    command("\xAB", 1, 0);
    shows(0x80 + 0x1E);
    reset();
    shows(0x40 + 0x10);
}

/* 81h drives from place 1, whatever is sent with it, and disarms as any transaction does; so do 82h and 83h. */
static void reads_of_each_length(uint32_t blocks)
{
    static uint8_t bytes[REF_MOST] = {0x81};
    size_t length, i;

    guarded(blocks, 0x80);
    for (length = 2; length <= REF_MOST; length *= 2) {
        bytes[length - 1] = (uint8_t)length;
        sent(bytes, length, 0, 1);
        for (i = 1; i < length; i++)
            output_is(i, 0x90);
    }
    command("\x66", 1, 0);
    command("\x81", 1, 0);
    command("\x99", 1, 25);
    command("\x66", 1, 0);
    command("\x82", 1, 0);
    command("\x99", 1, 25);
    command("\x66", 1, 0);
    command_with(0x83, 0x00, 0);
    command("\x99", 1, 25);
    shows(0x10);
}

/* What power-up is given shows at once. */
static void stored_at_power_up(uint32_t blocks)
{
    uint32_t stored;

    for (stored = 0; stored < 256; stored += 32) {
        guarded(blocks, (uint8_t)stored);
        shows((uint8_t)(stored + 0x10));
        fail_both();
        shows((uint8_t)(stored + 0x1E));
    }
}

static void why_nothing(uint32_t blocks)
{
    all_that_is_barred(blocks);
    what_sets_no_error(blocks);
    shown_while_busy(blocks);
    reset_while_busy(blocks);
    shown_in_chip_erase(blocks);
    volatile_sets(blocks);
    stored_sets(blocks);
    clears(blocks);
    asleep(blocks);
    reads_of_each_length(blocks);
    stored_at_power_up(blocks);
}

/* ---- Programs during erase suspend ---- */

/* The erases that can be suspended. A tick erases a page. */
static const struct unit_erase {
    uint8_t code;
    uint16_t pages;
} unit_erases[] = {{0xD7, 16}, {0x20, 16}, {0x52, 128}, {0xD8, 256}};

static bool is_large(void)
{
    return stored_length() == REF_LARGE * REF_BLOCK;
}

/* On 512 blocks these programs and erases take four address bytes, for those beside a unit may lie in both banks: after
 * a power-up or a reset, which clear it, EXTADD is set again. */
static void select_addresses(void)
{
    if (!is_large())
        return;
    sent("\xC8\x00", 2, 0, 1);
    output_is(1, 0x00);
    command("\xB7", 1, 0);
}

/* Puts down a command with an address. Gives the place behind it. */
static size_t put_address(uint8_t *bytes, uint8_t code, uint32_t address)
{
    size_t at = 0;

    bytes[at++] = code;
    if (is_large())
        bytes[at++] = (uint8_t)(address >> 24);
    bytes[at++] = (uint8_t)(address >> 16);
    bytes[at++] = (uint8_t)(address >> 8);
    bytes[at++] = (uint8_t)address;
    return at;
}

/* A command with an address, and with these bytes after it. */
static void addressed(uint8_t code, uint32_t address, const void *data, size_t count, uint64_t number)
{
    uint8_t bytes[5 + 300];
    size_t at = put_address(bytes, code, address);

    memcpy(bytes + at, data, count);
    command(bytes, at + count, number);
}

/* A program of one byte. */
static void program_is(uint32_t address, uint8_t byte, uint64_t number)
{
    addressed(0x02, address, &byte, 1, number);
}

/* Where an erase is, and how far. */
struct progress {
    const struct unit_erase *erase;
    uint32_t base, done;
};

static uint32_t unit_bytes(const struct unit_erase *erase)
{
    return erase->pages * REF_PAGE;
}

/* Ticks of the erase, of which so many do work. */
static void erase_ticks(struct progress *progress, uint32_t ticks, uint32_t worked)
{
    ticked(ticks, 0, worked);
    memset(change_stored(progress->base + progress->done * REF_PAGE, worked * REF_PAGE), 0xFF, worked * REF_PAGE);
    progress->done += worked;
    array_is_as_stored();
}

/* A fresh part whose erase of the unit that holds the address is suspended after so many ticks. */
static struct progress suspended_at(uint32_t blocks, const struct unit_erase *erase, uint32_t address, uint32_t ticks)
{
    struct progress progress = {erase, address - address % unit_bytes(erase), 0};

    fill_stored();
    powered(blocks);
    select_addresses();
    command("\x06", 1, 0);
    addressed(erase->code, address, "", 0, 0);
    erase_ticks(&progress, ticks, ticks);
    command(ticks % 2 == 0 ? "\x75" : "\xB0", 1, 0);
    registers_are(0x00, ESUS, 0x10);
    return progress;
}

/* The rest of the erase, once it is resumed: it goes on with its next tick, and ends idle. */
static void resumed_to_the_end(struct progress *progress, uint8_t errors)
{
    uint32_t left = progress->erase->pages - progress->done;

    command(left % 2 == 0 ? "\x7A" : "\x30", 1, 0);
    registers_are(WEL | WIP, 0x00, 0x10 | errors | WIP);
    erase_ticks(progress, 1, 1);
    if (left > 1) {
        registers_are(WEL | WIP, 0x00, 0x10 | errors | WIP);
        erase_ticks(progress, left, left - 1);
    }
    registers_are(0x00, 0x00, 0x10 | errors);
    ticked(1, 0, 0);
    command("\x7A", 1, 25);
}

/* There is a page outside of the unit; a part of one block has none outside of a block. */
static bool has_room(uint32_t blocks, const struct unit_erase *erase)
{
    return unit_bytes(erase) < blocks * REF_BLOCK;
}

/* The page before the unit or the one after it, over the array's ends. */
static uint32_t neighbour(const struct progress *progress, bool after)
{
    uint32_t length = (uint32_t)stored_length();

    return (progress->base + (after ? unit_bytes(progress->erase) : length - REF_PAGE)) % length;
}

static const uint8_t inner_bytes[] = {0x5A, 0xC3, 0x81, 0x3C};

/* What the inner program's tick writes: the program starts two places before its page's end. */
static void inner_tick(uint32_t page, uint32_t tick)
{
    uint32_t place = page + (254 + tick) % 256;

    ticked(1, 0, 1);
    *change_stored(place, 1) &= inner_bytes[tick];
    array_is_as_stored();
}

static void begin_inner(uint32_t page)
{
    command("\x06", 1, 0);
    registers_are(WEL, ESUS, 0x10);
    addressed(0x02, page + 254, inner_bytes, sizeof inner_bytes, 0);
    registers_are(WEL | WIP, ESUS, 0x10 | WIP);
}

/* While it runs it can't be suspended, and all that has to wait for its end is ignored. */
static void inner_is_busy(uint32_t page)
{
    command("\x75", 1, 25);
    command("\xB0", 1, 25);
    command("\x7A", 1, 22);
    command("\x30", 1, 22);
    command("\x06", 1, 22);
    command("\x04", 1, 22);
    program_is(page, 0x00, 22);
    addressed(0xD7, page, "", 0, 22);
    addressed(0x03, page, "", 0, 22);
    ticked(0, 0, 0);
    registers_are(WEL | WIP, ESUS, 0x10 | WIP);
}

/* A whole inner program, looked at before each of its ticks. */
static void inner_program(uint32_t page)
{
    uint32_t tick;

    begin_inner(page);
    for (tick = 0; tick < sizeof inner_bytes; tick++) {
        inner_is_busy(page);
        inner_tick(page, tick);
    }
    registers_are(0x00, ESUS, 0x10);
    ticked(1, 0, 0);
    program_is(page, 0x00, 26); /* WEL is 0 again */
    array_is_as_stored();
}

/* The erase suspended here, programs on both sides of it, and it goes on as if nothing had run. */
static void nested_at(uint32_t blocks, const struct unit_erase *erase, uint32_t address, uint32_t ticks)
{
    struct progress progress = suspended_at(blocks, erase, address, ticks);

    if (has_room(blocks, erase)) {
        inner_program(neighbour(&progress, ticks % 2 == 0));
        inner_program(neighbour(&progress, ticks % 2 != 0));
    }
    if (ticks % 3 != 0)
        command("\x06", 1, 0); /* resumed with WEL 1 */
    resumed_to_the_end(&progress, 0);
}

/* A SER at each of its ticks; the others at the first, the last and the middle ones. */
static bool is_tried(const struct unit_erase *erase, uint32_t ticks)
{
    uint32_t half = erase->pages / 2;

    return erase->pages == 16 || ticks < 2 || ticks + 2 >= erase->pages || ticks == half || ticks + 1 == half;
}

static void nested_at_each_tick(uint32_t blocks)
{
    uint32_t last = blocks * REF_BLOCK - 1, ticks;
    size_t i;

    for (i = 0; i < COUNT(unit_erases); i++)
        for (ticks = 0; ticks < unit_erases[i].pages; ticks++)
            if (is_tried(&unit_erases[i], ticks))
                nested_at(blocks, &unit_erases[i], ticks % 2 == 0 ? last / 2 : last, ticks);
}

/* Each page of the suspended unit: 28, and nothing begins. */
static void unit_is_barred(const struct progress *progress)
{
    uint32_t page;

    command("\x06", 1, 0);
    for (page = 0; page < progress->erase->pages; page++) {
        uint32_t address = progress->base + page * REF_PAGE;

        program_is(address + (page % 3 == 0 ? 0 : page % 3 == 1 ? 255 : page), 0x00, 28);
        registers_are(WEL, ESUS, 0x10 | P_ERR | PROT_E);
    }
    command("\x82", 1, 23);
    command("\x66", 1, 0);
    program_is(progress->base, 0x00, 28);
    command("\x99", 1, 25); /* 28 disarms */
    ticked(4096, 0, 0);
    array_is_as_stored();
}

/* Addresses that are not barred: beside the unit on both sides, and on 512 blocks its own in the other bank. */
static uint32_t free_address(const struct progress *progress, uint32_t which)
{
    if (which == 2)
        return progress->base ^ 0x1000000;
    return neighbour(progress, which == 1) + (which == 1 ? 0 : 255);
}

static void neighbours_are_free(const struct progress *progress)
{
    uint32_t which;

    for (which = 0; which < (is_large() ? 3 : 2); which++) {
        uint32_t address = free_address(progress, which);

        command("\x06", 1, 0);
        program_is(address, 0x11, 0);
        registers_are(WEL | WIP, ESUS, 0x10 | P_ERR | PROT_E | WIP);
        ticked(2, 0, 1);
        *change_stored(address, 1) &= 0x11;
        array_is_as_stored();
        registers_are(0x00, ESUS, 0x10 | P_ERR | PROT_E);
    }
}

static void barred_in_the_unit(uint32_t blocks)
{
    uint32_t length = blocks * REF_BLOCK, i;

    for (i = 0; i < COUNT(unit_erases); i++) {
        const uint32_t addresses[] = {0, length / 2, length - 1};
        struct progress progress = suspended_at(blocks, &unit_erases[i], addresses[i % 3], 5);

        unit_is_barred(&progress);
        if (has_room(blocks, &unit_erases[i]))
            neighbours_are_free(&progress);
        resumed_to_the_end(&progress, P_ERR | PROT_E);
    }
}

/* A protected block beside the suspended unit is barred as well. Code 14 protects block 0 alone; on 512 blocks code 1
 * does with TBS. */
static void barred_by_both(uint32_t blocks)
{
    uint8_t status = is_large() ? 1 * 4 : 14 * 4, function = is_large() ? TBS : 0;

    if (blocks == 1)
        return;
    fill_stored();
    powered_with(blocks, status, function, 0);
    select_addresses();
    command("\x06", 1, 0);
    addressed(0xD8, REF_BLOCK, "", 0, 0);
    command("\x75", 1, 0);
    command("\x06", 1, 0);
    program_is(REF_BLOCK - 1, 0x00, 28);
    program_is(REF_BLOCK, 0x00, 28);
    program_is(2 * REF_BLOCK - 1, 0x00, 28);
    registers_are(status | WEL, ESUS | function, 0x10 | P_ERR | PROT_E);
    program_is(2 * REF_BLOCK, 0x00, 0);
    ticked(1, 0, 1);
    registers_are(status, ESUS | function, 0x10 | P_ERR | PROT_E);
    *change_stored(2 * REF_BLOCK, 1) = 0x00;
    array_is_as_stored();
}

/* A command while an erase is suspended, with WEL 0 and with WEL 1, and while a program runs within it. */
struct nested_command {
    uint8_t length;
    uint8_t bytes[7];
    uint8_t disabled, enabled, running; /* the numbers */
};

/* Those with an address of the array, on the old sizes, where it is three bytes. */
static const struct nested_command old_commands[] = {
    {4, {0x03, 0x00, 0x00, 0x00}, 0, 0, 22},    {3, {0x03, 0x00, 0x00}, 24, 24, 22},
    {5, {0x0B, 0x00, 0x00, 0x00}, 0, 0, 22},    {4, {0x0B, 0x00, 0x00, 0x00}, 24, 24, 22},
    {4, {0x02, 0x00, 0x00, 0x00}, 24, 24, 22},  {5, {0x02, 0x00, 0x0F, 0xFF, 0x00}, 26, 28, 22},
    {4, {0xD7, 0x00, 0x00, 0x00}, 23, 23, 22},  {4, {0x20, 0x00, 0x80, 0x00}, 23, 23, 22},
    {4, {0x52, 0x00, 0x80, 0x00}, 23, 23, 22},  {4, {0xD8, 0x0F, 0x00, 0x00}, 23, 23, 22},
    {1, {0x16}, 20, 20, 20},                    {2, {0xC8, 0x00}, 20, 20, 20},
    {2, {0x17, 0x80}, 20, 20, 20},              {2, {0xC5, 0x81}, 20, 20, 20},
    {1, {0xB7}, 20, 20, 20},                    {1, {0x29}, 20, 20, 20},
    {5, {0x13, 0, 0, 0, 0}, 20, 20, 20},        {6, {0x0C, 0, 0, 0, 0, 0}, 20, 20, 20},
    {6, {0x12, 0, 0, 0x10, 0, 0}, 20, 20, 20},  {5, {0x21, 0, 0, 0x10, 0}, 20, 20, 20},
    {5, {0x5C, 0, 0, 0x80, 0}, 20, 20, 20},     {5, {0xDC, 0, 1, 0, 0}, 20, 20, 20},
};

/* On 512 blocks, with EXTADD 1. */
static const struct nested_command large_commands[] = {
    {5, {0x03, 0, 0, 0, 0}, 0, 0, 22},          {4, {0x03, 0x00, 0x00, 0x00}, 24, 24, 22},
    {6, {0x0B, 0, 0, 0, 0, 0}, 0, 0, 22},       {5, {0x0B, 0, 0, 0, 0}, 24, 24, 22},
    {5, {0x13, 1, 0, 0, 0}, 0, 0, 22},          {4, {0x13, 0, 0, 0}, 24, 24, 22},
    {6, {0x0C, 1, 0, 0, 0, 0}, 0, 0, 22},       {5, {0x0C, 0, 0, 0, 0}, 24, 24, 22},
    {5, {0x02, 0, 0, 0, 0}, 24, 24, 22},        {6, {0x02, 0, 0, 0x0F, 0xFF, 0x00}, 26, 28, 22},
    {6, {0x12, 0, 0, 0x0F, 0xFF, 0x00}, 23, 23, 22}, {6, {0x12, 1, 0, 0, 0, 0x00}, 23, 23, 22},
    {5, {0x12, 1, 0, 0, 0}, 23, 23, 22},        {5, {0xD7, 1, 0, 0, 0}, 23, 23, 22},
    {4, {0xD7, 0, 0, 0}, 23, 23, 22},           {5, {0x20, 1, 0, 0, 0}, 23, 23, 22},
    {5, {0x52, 1, 0, 0, 0}, 23, 23, 22},        {5, {0xD8, 1, 0, 0, 0}, 23, 23, 22},
    {5, {0x21, 1, 0, 0, 0}, 23, 23, 22},        {5, {0x5C, 1, 0, 0, 0}, 23, 23, 22},
    {5, {0xDC, 1, 0, 0, 0}, 23, 23, 22},        {4, {0xDC, 1, 0, 0}, 23, 23, 22},
    {1, {0x16}, 0, 0, 22},                      {1, {0xC8}, 0, 0, 22},
    {2, {0x17, 0x00}, 23, 23, 22},              {2, {0xC5, 0x01}, 23, 23, 22},
    {1, {0xC5}, 23, 23, 22},                    {1, {0xB7}, 23, 23, 22},
    {1, {0x29}, 23, 23, 22},                    {2, {0x29, 0x00}, 23, 23, 22},
    {2, {0x18, 0x01}, 20, 20, 20},
};

/* All others, on each size. */
static const struct nested_command nested_commands[] = {
    {1, {0x05}, 0, 0, 0},                       {1, {0x48}, 0, 0, 0},
    {1, {0x81}, 0, 0, 0},                       {1, {0x9F}, 0, 0, 22},
    {4, {0x90, 0x00, 0x00, 0x00}, 0, 0, 22},    {1, {0xAB}, 0, 0, 22},
    {5, {0x68, 0x00, 0x30, 0x00}, 0, 0, 22},    {5, {0x68, 0x00, 0x40, 0x00}, 27, 27, 22},
    {2, {0x06, 0x00}, 24, 24, 22},              {2, {0x04, 0x00}, 24, 24, 22},
    {1, {0xC7}, 23, 23, 22},                    {1, {0x60}, 23, 23, 22},
    {4, {0x64, 0x00, 0x20, 0x00}, 23, 23, 22},  {5, {0x62, 0x00, 0x20, 0x00, 0x00}, 23, 23, 22},
    {2, {0x01, 0x3C}, 23, 23, 22},              {2, {0x42, 0xF0}, 23, 23, 22},
    {2, {0x83, 0xE0}, 23, 23, 22},              {2, {0x85, 0xE0}, 23, 23, 22},
    {1, {0x82}, 23, 23, 22},                    {1, {0xB9}, 23, 23, 22},
    {1, {0x75}, 23, 23, 25},                    {1, {0xB0}, 23, 23, 25},
    {2, {0x75, 0x00}, 23, 23, 24},              {2, {0xB0, 0x00}, 23, 23, 24},
    {2, {0x7A, 0x00}, 24, 24, 22},              {2, {0x30, 0x00}, 24, 24, 22},
    {2, {0x66, 0x00}, 24, 24, 24},              {1, {0x99}, 25, 25, 25},
    {1, {0x84}, 20, 20, 20},                    {1, {0x66}, 0, 0, 0},
    {2, {0x99, 0x00}, 24, 24, 24},              {1, {0x99}, 25, 25, 25},
};

/* Each command on a fresh part in each of the three, and the registers after it. */
static void commands_nested(uint32_t blocks, const struct nested_command *commands, size_t count)
{
    for (; count > 0; count--, commands++) {
        uint8_t errors = commands->enabled == 28 ? P_ERR | PROT_E : 0;
        struct progress progress = suspended_at(blocks, &unit_erases[0], 0, 3);

        command(commands->bytes, commands->length, commands->disabled);
        registers_are(0x00, ESUS, 0x10);
        command("\x06", 1, 0);
        command(commands->bytes, commands->length, commands->enabled);
        registers_are(WEL, ESUS, 0x10 | errors);
        program_is(unit_bytes(progress.erase), 0x00, 0);
        command(commands->bytes, commands->length, commands->running);
        registers_are(WEL | WIP, ESUS, 0x10 | errors | WIP);
        ticked(1, 0, 1);
        *change_stored(unit_bytes(progress.erase), 1) = 0x00;
        array_is_as_stored();
        registers_are(0x00, ESUS, 0x10 | errors);
        resumed_to_the_end(&progress, errors);
    }
}

static void each_command_nested(uint32_t blocks)
{
    commands_nested(blocks, nested_commands, COUNT(nested_commands));
    if (is_large())
        commands_nested(blocks, large_commands, COUNT(large_commands));
    else
        commands_nested(blocks, old_commands, COUNT(old_commands));
}

/* 06h and 04h set and clear WEL, as often as they are sent; no tick does work. */
static void enabled_and_disabled(uint32_t blocks)
{
    static const uint8_t codes[] = {0x04, 0x06, 0x06, 0x04, 0x04, 0x06};
    struct progress progress = suspended_at(blocks, &unit_erases[1], blocks * REF_BLOCK - 1, 8);
    size_t i;

    for (i = 0; i < COUNT(codes); i++) {
        command(&codes[i], 1, 0);
        registers_are(codes[i] == 0x06 ? WEL : 0x00, ESUS, 0x10);
        ticked(4096, 0, 0);
        registers_are(codes[i] == 0x06 ? WEL : 0x00, ESUS, 0x10);
    }
    array_is_as_stored();
    command("\xB0", 1, 23); /* WEL is 1 */
    resumed_to_the_end(&progress, 0);
}

/* What is taken in erase suspend disarms, as any transaction but 66h does. */
static void disarmed_in_suspend(uint32_t blocks)
{
    struct progress progress = suspended_at(blocks, &unit_erases[0], 0, 2);

    command("\x66", 1, 0);
    command("\x06", 1, 0);
    command("\x99", 1, 25);
    command("\x66", 1, 0);
    program_is(0x1000, 0x00, 0);
    command("\x99", 1, 25);
    ticked(1, 0, 1);
    *change_stored(0x1000, 1) = 0x00;
    array_is_as_stored();
    command("\x66", 1, 0);
    command("\x04", 1, 0);
    command("\x99", 1, 25);
    command("\x66", 1, 0);
    program_is(0x1000, 0x00, 26);
    command("\x99", 1, 25);
    registers_are(0x00, ESUS, 0x10);
    resumed_to_the_end(&progress, 0);
}

/* Several programs in one suspend, and in the next one of the same erase. */
static void many_programs(uint32_t blocks)
{
    struct progress progress = suspended_at(blocks, &unit_erases[2], 0, 1);
    uint32_t suspends, programs;

    for (suspends = 0; suspends < 3; suspends++) {
        for (programs = 0; programs < 4; programs++)
            inner_program(unit_bytes(progress.erase) + programs * REF_PAGE);
        inner_program(neighbour(&progress, suspends == 1));
        command("\x7A", 1, 0);
        erase_ticks(&progress, 20, 20);
        command("\x75", 1, 0);
        registers_are(0x00, ESUS, 0x10);
    }
    resumed_to_the_end(&progress, 0);
}

/* Both operations are gone: nothing runs, and nothing is to be resumed or suspended. */
static void both_are_dropped(void)
{
    registers_are(0x00, 0x00, 0x10);
    ticked(4096, 0, 0);
    array_is_as_stored();
    command("\x7A", 1, 25);
    command("\x75", 1, 25);
    select_addresses();
    program_is(0, 0x00, 26);
}

/* Reset or power-up after each tick of the inner program; at the last, the part is erase-suspended again. */
static void dropped_at(uint32_t blocks, const struct unit_erase *erase, uint32_t ticks, bool by_reset)
{
    struct progress progress = suspended_at(blocks, erase, 0, erase->pages / 2 + ticks);
    uint32_t page = neighbour(&progress, by_reset), tick;

    begin_inner(page);
    for (tick = 0; tick < ticks; tick++)
        inner_tick(page, tick);
    if (by_reset) {
        command("\x66", 1, 0);
        command("\x05", 1, 0);
        command("\x99", 1, 25);
        reset();
    } else {
        powered(blocks);
    }
    both_are_dropped();
    command("\x06", 1, 0);
    program_is(progress.base, 0x00, 0); /* the unit is no longer barred */
    registers_are(WEL | WIP, 0x00, 0x10 | WIP);
    command("\x75", 1, 0);
    registers_are(0x00, PSUS, 0x10);
}

static void dropped(uint32_t blocks)
{
    uint32_t ticks;
    size_t i;

    for (i = 0; i < COUNT(unit_erases); i++) {
        if (!has_room(blocks, &unit_erases[i]))
            continue;
        for (ticks = 0; ticks <= sizeof inner_bytes; ticks++) {
            dropped_at(blocks, &unit_erases[i], ticks, true);
            dropped_at(blocks, &unit_erases[i], ticks, false);
        }
    }
}

/* Of a program of 300 bytes within an erase the last 256 count, and take a tick each; ticks do not disarm. */
static void long_inner_program(uint32_t blocks)
{
    uint8_t bytes[300];
    struct progress progress = suspended_at(blocks, &unit_erases[0], 0, 0);
    uint32_t i;

    for (i = 0; i < 300; i++) {
        bytes[i] = (uint8_t)(i * 5);
        if (i >= 300 - 256)
            *change_stored(0x1000 + (0x80 + i) % 256, 1) &= (uint8_t)(i * 5);
    }
    command("\x06", 1, 0);
    addressed(0x02, 0x1080, bytes, sizeof bytes, 0);
    ticked(255, 0, 255);
    registers_are(WEL | WIP, ESUS, 0x10 | WIP);
    command("\x66", 1, 0);
    ticked(4096, 0, 1);
    array_is_as_stored();
    command("\x99", 1, 0);
    both_are_dropped();
    progress = suspended_at(blocks, &unit_erases[0], 0, 0);
    resumed_to_the_end(&progress, 0);
}

/* While a program is suspended 06h, 04h and 02h are ignored as they were. */
static void suspended_program(uint32_t blocks)
{
    fill_stored();
    powered(blocks);
    select_addresses();
    command("\x06", 1, 0);
    program_is(0x1000, 0x00, 0);
    command("\x75", 1, 0);
    command("\x06", 1, 23);
    command("\x04", 1, 23);
    command("\x06\x00", 2, 23);
    program_is(0x2000, 0x00, 23);
    program_is(0x1000, 0x00, 23);
    registers_are(0x00, PSUS, 0x10);
    command("\x7A", 1, 0);
    ticked(2, 0, 1);
    *change_stored(0x1000, 1) = 0x00;
    array_is_as_stored();
    registers_are(0x00, 0x00, 0x10);
}

static void during_erase_suspend(uint32_t blocks)
{
    nested_at_each_tick(blocks);
    barred_in_the_unit(blocks);
    barred_by_both(blocks);
    each_command_nested(blocks);
    enabled_and_disabled(blocks);
    disarmed_in_suspend(blocks);
    many_programs(blocks);
    dropped(blocks);
    long_inner_program(blocks);
    suspended_program(blocks);
    whole_array_is_as_stored();
}

/* A record of zeros was never powered up, and has no size: 1. The call is made of the model alone, and the junk is put
 * back. */
static void never_powered_up(struct call call)
{
    uint8_t junk[YAWLSPAR_RECORD_BYTES];
    uint64_t got;
    size_t i;

    memcpy(junk, model.record, sizeof junk);
    memset(model.record, 0, sizeof junk);
    prepare(&call);
    got = call_model(&model, &call);
    if (got != 1)
        fail(&call, "the result of a record of zeros", 1, got);
    for (i = 0; i < sizeof junk; i++)
        if (model.record[i] != 0)
            fail(&call, "a byte of a record of zeros", 0, model.record[i]);
    memcpy(model.record, junk, sizeof junk);
    same_memory(&call);
}

static void on_size(uint32_t blocks)
{
    struct call no_record;

    begin_run("directed calls", blocks, blocks);
    forget_stored();
    no_record = status_read(); /* junk is no record */
    number_is(&no_record, 5);
    no_record = fitting(TICK);
    number_is(&no_record, 5);
    never_powered_up(status_read());
    never_powered_up(fitting(TICK));
    power_up_numbers(blocks);
    powered(blocks);
    transact_numbers();
    tick_numbers(blocks);
    identity();
    if (blocks != REF_LARGE)
        protected_blocks(blocks);
    why_nothing(blocks);
    during_erase_suspend(blocks);
    end_run();
}

void directed_calls(void)
{
    size_t i;

    for (i = 0; i < COUNT(sizes); i++)
        on_size((uint32_t)sizes[i]);
    begin_run("cases 12 and 13", 0, 16);
    powered(16);
    case_12();
    case_13();
    end_run();
}
