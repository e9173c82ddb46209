/* Records whose bytes were changed.
 *
 * What record such bytes hold, if any, is not known here. So each call is held to what is promised of any
 * bytes: either it is refused, and then nothing at all was written, or the bytes hold a sound record, and then
 * the number is one of the table, nothing outside of the buffers was written, a transaction left array and rows,
 * and the same call on a copy does the same. Only a few fields are looked for, by two records that differ in one of
 * them alone: the stored byte of the extended read register, the function register, the bank address register, and what
 * the record holds of the two operations of a part that programs during erase suspend. Of these is known which values
 * are sound.
 *
 * Most of it is on one block. On 512 blocks a few pages of the array are looked at after each call, others each
 * time, and what ticks wrote is not put back; the two copies are compared whole in the end. */
#include "both.h"

extern int memcmp(const void *, const void *, unsigned long);
extern void *memcpy(void *, const void *, unsigned long);
extern void *memset(void *, int, unsigned long);

#define WINDOW (16u * REF_PAGE)

static struct chance chance;
static uint32_t blocks;
static uint8_t sound[YAWLSPAR_RECORD_BYTES]; /* the record before it was changed */
static uint8_t array[16u * REF_BLOCK], rows[REF_ROWS]; /* what they held then; the array of an old size only */

/* ---- A call on changed bytes ---- */

static struct call transaction(size_t length)
{
    struct call call = fitting(TRANSACT);

    call.input = call.output = length;
    return call;
}

static struct call some_tick(uint64_t ticks)
{
    struct call call = fitting(TICK);

    call.ticks = ticks;
    return call;
}

static size_t array_bytes(void)
{
    return (size_t)blocks * REF_BLOCK;
}

static bool is_large(void)
{
    return blocks == REF_LARGE;
}

static void keep_memory(void)
{
    if (!is_large())
        memcpy(array, model.array, array_bytes());
    memcpy(rows, model.rows, sizeof rows);
}

static void put_back_memory(void)
{
    memcpy(model.rows, rows, sizeof rows);
    memcpy(reference.rows, rows, sizeof rows);
    if (is_large())
        return;
    memcpy(model.array, array, array_bytes());
    memcpy(reference.array, array, array_bytes());
}

/* Some pages of a large array, as they are before a transaction. */
static uint8_t window[WINDOW];
static size_t window_at;

static void keep_window(void)
{
    if (!is_large())
        return;
    window_at = (size_t)number_below(&chance, (uint32_t)(array_bytes() / WINDOW)) * WINDOW;
    memcpy(window, model.array + window_at, sizeof window);
}

static bool array_is_left(void)
{
    if (is_large())
        return memcmp(model.array + window_at, window, sizeof window) == 0;
    return memcmp(model.array, array, array_bytes()) == 0;
}

static void transaction_left_memory(const struct call *call)
{
    if (!array_is_left() || memcmp(model.rows, rows, sizeof rows) != 0)
        fail(call, "whether a transaction wrote array or rows", 0, 1);
}

/* Both sides hold the same bytes before it and after it. Gives the result. */
static uint64_t try_call(const struct call *call)
{
    uint64_t result, again;

    keep_window();
    prepare(call);
    result = call_model(&model, call);
    if (!is_refusal(result)) {
        again = call_model(&reference, call);
        if (again != result)
            fail(call, "the same call on a copy", result, again);
    }
    same_record(call);
    same_memory_in_part(call);
    if (call->kind == TRANSACT)
        transaction_left_memory(call);
    else if (YAWLSPAR_TICKS(result) > 0)
        put_back_memory();
    return result;
}

/* ---- What may be answered ---- */

static bool is_ignored(uint64_t number)
{
    return number >= 20 && number <= 28;
}

static void transaction_may_answer(const struct call *call, uint64_t result)
{
    uint64_t number = YAWLSPAR_NUMBER(result);

    if (number != 0 && number != 1 && number != 5 && !is_ignored(number))
        fail(call, "a number of a transaction with good lengths", 5, number);
    if (is_refusal(result) && YAWLSPAR_PLACE(result) != 0)
        fail(call, "the first driven place of a refusal", 0, YAWLSPAR_PLACE(result));
    if (!is_refusal(result) && (YAWLSPAR_PLACE(result) == 0 || YAWLSPAR_PLACE(result) > call->input))
        fail(call, "the first driven place, up to the length", call->input, YAWLSPAR_PLACE(result));
}

static void ticks_may_answer(const struct call *call, uint64_t result)
{
    uint64_t number = YAWLSPAR_NUMBER(result);

    if (number != 0 && number != 1 && number != 5)
        fail(call, "a number of ticks with good lengths", 5, number);
    if (YAWLSPAR_TICKS(result) > (number == 0 ? call->ticks : 0))
        fail(call, "the ticks that did work, at most", number == 0 ? call->ticks : 0, YAWLSPAR_TICKS(result));
}

/* With a bad length besides, the answer is the lower of the two numbers, for bytes that hold no record too. */
static void in_order(const struct call *call, uint64_t alone, uint64_t lower)
{
    uint64_t number = YAWLSPAR_NUMBER(try_call(call));

    if (alone == 1 && number != 1)
        fail(call, "the number of a record whose size is bad", 1, number);
    if (alone != 1 && number != lower)
        fail(call, "the number of a record with a bad length", lower, number);
}

/* ---- The calls that each changed record gets ---- */

static void set_record(const uint8_t *bytes)
{
    memcpy(model.record, bytes, YAWLSPAR_RECORD_BYTES);
    memcpy(reference.record, bytes, YAWLSPAR_RECORD_BYTES);
}

static uint64_t read_status(const uint8_t *bytes)
{
    struct call call = transaction(2);
    uint64_t result;

    set_record(bytes);
    message[0] = 0x05;
    message[1] = 0x00;
    result = try_call(&call);
    transaction_may_answer(&call, result);
    return YAWLSPAR_NUMBER(result);
}

/* A sound record's extended read register has bit 4 set, and bit 0 as the status has it. */
static void read_extended(const uint8_t *bytes, uint8_t status)
{
    struct call call = transaction(2);
    uint64_t result;

    set_record(bytes);
    message[0] = 0x81;
    message[1] = 0x00;
    result = try_call(&call);
    if (result != 256)
        fail(&call, "81h where 05h is executed", 256, result);
    if ((model.output[1] & 0x11) != (0x10 | (status & 0x01)))
        fail(&call, "bits 4 and 0 of what 81h drives", 0x10 | (status & 0x01), model.output[1] & 0x11);
}

/* A record that a call has just written or left is sound, so that a status read is not refused with 5. */
static void stays_sound(void)
{
    uint8_t after[YAWLSPAR_RECORD_BYTES];

    memcpy(after, model.record, sizeof after);
    if (read_status(after) == 5) {
        struct call call = transaction(2);

        fail(&call, "whether a record that a call wrote is sound", 1, 0);
    }
}

/* A transaction leaves a sound record sound. */
static void try_command(const uint8_t *bytes, const void *command, size_t length)
{
    struct call call = transaction(length);
    uint64_t result;

    set_record(bytes);
    memcpy(message, command, length);
    result = try_call(&call);
    transaction_may_answer(&call, result);
    if (!is_refusal(result))
        stays_sound();
}

/* Row 0 is locked in most of the records: 28 changes the record. */
static void erase_row(const uint8_t *bytes)
{
    try_command(bytes, "\x64\x00\x00\x00", 4);
}

/* One of the commands by which the phase or WEL may change: a program, on its own or within an erase, suspend, resume,
 * write enable, write disable. */
static void change_phase(const uint8_t *bytes)
{
    static const uint8_t program[] = {0x02, 0x00, 0x12, 0x34, 0x56}, others[] = {0x75, 0x7A, 0x06, 0x04};
    uint32_t drawn = number_below(&chance, 1 + COUNT(others));

    if (drawn == COUNT(others))
        try_command(bytes, program, sizeof program);
    else
        try_command(bytes, &others[drawn], 1);
}

static void tick_some(const uint8_t *bytes, uint64_t ticks)
{
    struct call call = some_tick(ticks);
    uint64_t result;

    set_record(bytes);
    result = try_call(&call);
    ticks_may_answer(&call, result);
    if (YAWLSPAR_NUMBER(result) == 0)
        stays_sound();
}

static void order_of_numbers(const uint8_t *bytes, uint64_t alone)
{
    struct call call;

    set_record(bytes);
    call = transaction(2);
    call.rows = REF_ROWS - 1;
    in_order(&call, alone, 2);
    call = transaction(0);
    in_order(&call, alone, 3);
    call = transaction(2);
    call.output = 3;
    in_order(&call, alone, 4);
    call = some_tick(1);
    call.rows = REF_ROWS + 1;
    in_order(&call, alone, 2);
}

static void try_record(const uint8_t *bytes)
{
    uint64_t number = read_status(bytes);
    uint8_t status = model.output[1];

    if (number != 1 && number != 5)
        stays_sound();
    if (number == 0) {
        read_extended(bytes, status);
        change_phase(bytes);
    }
    erase_row(bytes);
    tick_some(bytes, 1);
    if (number != 5 || number_below(&chance, 8) == 0) {
        order_of_numbers(bytes, number);
        tick_some(bytes, REF_MOST);
    }
}

/* ---- The changes ---- */

static void each_byte_changed(void)
{
    uint8_t bytes[YAWLSPAR_RECORD_BYTES];
    size_t i, j;

    for (i = 0; i < sizeof bytes; i++) {
        const uint8_t values[] = {0x00, 0xFF, (uint8_t)(sound[i] ^ 0x01), (uint8_t)(sound[i] ^ 0x80),
                                  (uint8_t)(sound[i] + 1), (uint8_t)number_below(&chance, 256)};

        memcpy(bytes, sound, sizeof bytes);
        for (j = 0; j < COUNT(values); j++) {
            bytes[i] = values[j];
            try_record(bytes);
        }
    }
}

static void some_bytes_changed(uint32_t times)
{
    uint8_t bytes[YAWLSPAR_RECORD_BYTES];
    uint32_t many;

    for (; times > 0; times--) {
        memcpy(bytes, sound, sizeof bytes);
        for (many = 2 + number_below(&chance, 3); many > 0; many--)
            bytes[number_below(&chance, sizeof bytes)] = (uint8_t)number_below(&chance, 256);
        try_record(bytes);
    }
}

static void length_is_wrong(size_t length)
{
    struct call both_calls[] = {transaction(2), some_tick(1)};
    size_t i;

    for (i = 0; i < COUNT(both_calls); i++) {
        uint64_t result;

        both_calls[i].record = length;
        result = try_call(&both_calls[i]);
        if (result != 5)
            fail(&both_calls[i], "the result for a record of another length", 5, result);
    }
}

static void cut_and_lengthened(void)
{
    size_t length;

    set_record(sound);
    for (length = 0; length <= RECORD_ROOM; length++)
        if (length != YAWLSPAR_RECORD_BYTES)
            length_is_wrong(length);
}

static void random_bytes(uint32_t times)
{
    uint8_t bytes[YAWLSPAR_RECORD_BYTES];
    size_t i;

    for (; times > 0; times--) {
        for (i = 0; i < sizeof bytes; i++)
            bytes[i] = (uint8_t)number_below(&chance, 256);
        try_record(bytes);
    }
}

static void one_value(uint8_t value)
{
    uint8_t bytes[YAWLSPAR_RECORD_BYTES];

    memset(bytes, value, sizeof bytes);
    try_record(bytes);
}

/* ---- The states whose records are changed ---- */

struct transmission {
    uint8_t length;
    uint8_t bytes[9];
};

/* Sent after a power-up, each with WP# high. */
struct state {
    const char *name;
    uint64_t ticks;      /* pass after the second of them */
    uint64_t last_ticks; /* pass after the last */
    struct transmission sent[6];
};

static const struct state states[] = {
    {"changed: idle", 0, 0, {{0}}},
    {"changed: write enabled and armed", 0, 0, {{1, {0x06}}, {1, {0x66}}}},
    {"changed: asleep", 0, 0, {{1, {0xB9}}}},
    {"changed: in a program", 2, 0, {{1, {0x06}}, {9, {0x02, 0x00, 0x12, 0xFD, 1, 2, 3, 4, 5}}, {1, {0x66}}}},
    {"changed: in a sector erase", 3, 0, {{1, {0x06}}, {4, {0xD7, 0x00, 0x30, 0x00}}}},
    {"changed: in a 32 KiB erase", 100, 0, {{1, {0x06}}, {4, {0x52, 0x00, 0x80, 0x00}}}},
    {"changed: in a block erase", 200, 0, {{1, {0x06}}, {4, {0xD8, 0x00, 0x00, 0x00}}}},
    {"changed: in a chip erase", 255, 0, {{1, {0x06}}, {1, {0xC7}}}},
    {"changed: in a row erase", 0, 0, {{1, {0x06}}, {4, {0x64, 0x00, 0x20, 0x00}}}},
    {"changed: in a row program", 1, 0, {{1, {0x06}}, {9, {0x62, 0x00, 0x30, 0xFE, 9, 8, 7, 6, 5}}}},
    {"changed: in a status write", 0, 0, {{1, {0x06}}, {2, {0x01, 0xBC}}}},
    {"changed: in a function write", 0, 0, {{1, {0x06}}, {2, {0x42, 0xF0}}}},
    {"changed: in an extended write", 0, 0, {{1, {0x06}}, {2, {0x85, 0xE0}}, {1, {0x66}}}},
    {"changed: with an erase error", 0, 0, {{1, {0x06}}, {4, {0x64, 0x00, 0x00, 0x00}}, {2, {0x83, 0xA0}}}},
    {"changed: with both errors, in a program", 0, 0,
     {{1, {0x06}}, {4, {0x64, 0x00, 0x00, 0x00}}, {5, {0x62, 0, 0, 0, 9}}, {6, {0x02, 0x00, 0x12, 0xFE, 8, 7}}}},
    {"changed: suspended from a program", 1, 0,
     {{1, {0x06}}, {9, {0x02, 0x00, 0xFF, 0xFF, 1, 2, 3, 4, 5}}, {1, {0x75}}}},
    {"changed: suspended from an erase", 15, 0,
     {{1, {0x06}}, {4, {0x20, 0x00, 0xF0, 0x00}}, {1, {0xB0}}, {1, {0x66}}}},
    {"changed: suspended from an erase, write enabled", 3, 0,
     {{1, {0x06}}, {4, {0xD7, 0x00, 0x10, 0x00}}, {1, {0x75}}, {1, {0x06}}, {1, {0x66}}}},
    {"changed: suspended from a block erase, write enabled, with a program error", 130, 0,
     {{1, {0x06}}, {4, {0xD8, 0x00, 0x00, 0x00}}, {1, {0x75}}, {1, {0x06}}, {5, {0x02, 0x00, 0x12, 0x34, 0x56}}}},
    {"changed: in a program within a sector erase", 5, 2,
     {{1, {0x06}}, {4, {0xD7, 0x00, 0x30, 0x00}}, {1, {0x75}}, {1, {0x06}},
      {9, {0x02, 0x00, 0x2F, 0xFD, 1, 2, 3, 4, 5}}, {1, {0x66}}}},
    {"changed: in a program within a 32 KiB erase", 127, 4,
     {{1, {0x06}}, {4, {0x52, 0x00, 0x80, 0x00}}, {1, {0xB0}}, {1, {0x06}},
      {9, {0x02, 0x00, 0x00, 0xFF, 9, 8, 7, 6, 5}}}},
    {"changed: in a program within an erase, with a program error", 0, 0,
     {{1, {0x06}}, {4, {0x20, 0x00, 0x00, 0x00}}, {1, {0x75}}, {1, {0x06}},
      {5, {0x02, 0x00, 0x0F, 0xFF, 0x00}}, {6, {0x02, 0x00, 0x10, 0x00, 8, 7}}}},
    {"changed: suspended from an erase, after a program within it", 9, 2,
     {{1, {0x06}}, {4, {0x20, 0x00, 0x40, 0x00}}, {1, {0x75}}, {1, {0x06}},
      {6, {0x02, 0x00, 0x50, 0x00, 8, 7}}}},
};

/* The same on 512 blocks. */
static const struct state large_states[] = {
    {"changed: 512 blocks, idle in bank 1 with four bytes", 0, 0, {{2, {0xC5, 0x81}}}},
    {"changed: 512 blocks, asleep in bank 1", 0, 0, {{2, {0x17, 0x01}}, {1, {0x06}}, {1, {0xB9}}}},
    {"changed: 512 blocks, in a program", 2, 0,
     {{1, {0x06}}, {9, {0x12, 0x01, 0xFF, 0xFF, 0xFD, 1, 2, 3, 4}}, {1, {0x66}}}},
    {"changed: 512 blocks, in a block erase", 200, 0, {{1, {0x06}}, {5, {0xDC, 0x01, 0x80, 0x00, 0x00}}}},
    {"changed: 512 blocks, in a chip erase", 65537, 0, {{1, {0x06}}, {1, {0xC7}}}},
    {"changed: 512 blocks, in a program within a sector erase", 5, 2,
     {{1, {0x06}}, {5, {0x21, 0x01, 0x00, 0x00, 0x00}}, {1, {0x75}}, {1, {0x06}},
      {9, {0x02, 0xFF, 0xFF, 0xFD, 1, 2, 3, 4, 5}}, {1, {0x66}}}},
};

static struct call identified(void)
{
    struct call call = fitting(POWER_UP);

    call.maker = 0x9D;
    call.type = 0x60;
    call.capacity = 0x14;
    call.device = 0x13;
    call.status = 0x40;
    call.function = is_large() ? 0x12 : 0x10; /* with TBS */
    call.extended = 0x60;
    return call;
}

static void reach(const struct state *state)
{
    struct call call = identified();
    uint64_t number;
    size_t i;

    step(&call);
    for (i = 0; i < COUNT(state->sent) && state->sent[i].length > 0; i++) {
        memcpy(message, state->sent[i].bytes, state->sent[i].length);
        call = transaction(state->sent[i].length);
        number = YAWLSPAR_NUMBER(step(&call));
        if (number != 0 && number != 28) /* 28 sets error bits */
            fail(&call, "the number on the way to a state", 0, number);
        if (i == 1) {
            call = some_tick(state->ticks);
            step(&call);
        }
    }
    call = some_tick(state->last_ticks);
    step(&call);
}

static void begin(const char *name, uint64_t seed, uint32_t size)
{
    blocks = size;
    begin_run(name, seed, size);
}

static void compare_whole(void)
{
    struct call call = some_tick(0);

    same_memory(&call);
}

static void change(const struct state *state, uint64_t seed, uint32_t size)
{
    chance.state = seed;
    begin(state->name, seed, size);
    reach(state);
    memcpy(sound, model.record, sizeof sound);
    keep_memory();
    each_byte_changed();
    some_bytes_changed(100);
    cut_and_lengthened();
    compare_whole();
}

/* ---- One field of a record ---- */

/* The only place where the records of two states differ. That of the first one is kept. */
static size_t place_that_differs(const struct state *one, const struct state *other)
{
    struct call call = transaction(2);
    size_t place = 0, places = 0, i;

    reach(one);
    memcpy(sound, model.record, sizeof sound);
    reach(other);
    keep_memory();
    for (i = 0; i < sizeof sound; i++)
        if (model.record[i] != sound[i]) {
            place = i;
            places++;
        }
    if (places != 1)
        fail(&call, "at how many places the records of two states differ", 1, places);
    return place;
}

static void send_good(const void *bytes, size_t length)
{
    struct call call = transaction(length);
    uint64_t number;

    memcpy(message, bytes, length);
    number = YAWLSPAR_NUMBER(try_call(&call));
    if (number != 0)
        fail(&call, "the number of a good transaction", 0, number);
}

/* Of the values of the extended read register's stored byte the eight that have bits 4..0 zero are sound, and a reset
 * shows bits 7..5 of each. The byte is found by setting it, with the volatile byte set before. */
static void stored_byte_changed(void)
{
    static const struct state set_once = {"changed: the stored byte", 0, 0, {{2, {0x83, 0xE0}}}};
    static const struct state set_both = {
        "changed: the stored byte", 0, 1, {{2, {0x83, 0xE0}}, {1, {0x06}}, {2, {0x85, 0xE0}}}};
    struct call call = transaction(2);
    uint8_t bytes[YAWLSPAR_RECORD_BYTES];
    uint32_t value, sound_values = 0, shown = 0;
    size_t place;

    begin(set_once.name, 1, 1);
    place = place_that_differs(&set_once, &set_both);
    memcpy(bytes, sound, sizeof bytes);
    for (value = 0; value < 256; value++) {
        bytes[place] = (uint8_t)value;
        if (read_status(bytes) == 5)
            continue;
        sound_values++;
        send_good("\x66", 1);
        send_good("\x99", 1);
        send_good("\x81\x00", 2);
        if ((model.output[1] & 0x1F) != 0x10)
            fail(&call, "bits 4..0 of what 81h drives after a reset", 0x10, model.output[1] & 0x1F);
        shown |= 1u << (model.output[1] >> 5);
    }
    if (sound_values != 8)
        fail(&call, "how many values of the stored byte are sound", 8, sound_values);
    if (shown != 0xFF)
        fail(&call, "which values of bits 7..5 are shown, as bits", 0xFF, shown);
}

/* ---- The registers of 512 blocks ---- */

/* Which values of the byte at a place are sound, and that this code, which reads it, shows each of them. */
static void sound_values_are(size_t place, bool (*is_sound)(uint32_t value), uint8_t code)
{
    struct call call = transaction(2);
    uint8_t bytes[YAWLSPAR_RECORD_BYTES];
    uint32_t value;

    memcpy(bytes, sound, sizeof bytes);
    for (value = 0; value < 256; value++) {
        bool is;

        bytes[place] = (uint8_t)value;
        is = read_status(bytes) != 5;
        if (is != is_sound(value))
            fail(&call, is ? "a value that is not sound, taken" : "a sound value, refused", 0, value);
        if (is && code != 0) {
            message[0] = code;
            message[1] = 0x00;
            if (try_call(&call) != 256)
                fail(&call, "the number of a register read", 0, 1);
            if (model.output[1] != value)
                fail(&call, "what a register read shows", value, model.output[1]);
        }
        try_record(bytes);
    }
}

/* EXTADD and the bank bit; bits 6..1 are zero. */
static bool is_bank(uint32_t value)
{
    return value == 0x00 || value == 0x01 || value == 0x80 || value == 0x81;
}

static bool is_zero(uint32_t value)
{
    return value == 0;
}

/* Of an idle part: bits 3..0 are zero, but for TBS. */
static bool is_large_function(uint32_t value)
{
    return (value & 0x0D) == 0;
}

static bool is_old_function(uint32_t value)
{
    return (value & 0x0F) == 0;
}

/* The bank address register's byte is found on 512 blocks, by writing it. There four values are sound, and 00h alone
 * on the other sizes, whose records have it in the same place. */
static void bank_byte_changed(const uint32_t *old, size_t count)
{
    static const struct state bank_0 = {"changed: the bank address register", 0, 0, {{2, {0xC5, 0x00}}}};
    static const struct state bank_1 = {"", 0, 0, {{2, {0xC5, 0x81}}}};
    size_t place;

    begin(bank_0.name, 1, REF_LARGE);
    place = place_that_differs(&bank_0, &bank_1);
    sound_values_are(place, is_bank, 0xC8);
    compare_whole();
    for (; count > 0; count--, old++) {
        struct call call;

        begin(bank_0.name, 1, *old);
        call = identified();
        step(&call);
        memcpy(sound, model.record, sizeof sound);
        keep_memory();
        sound_values_are(place, is_zero, 0);
    }
}

/* The function register's byte is found by two power-ups. */
static void function_byte_changed(uint32_t size)
{
    struct call call;
    size_t place = 0, places = 0, i;

    begin("changed: the function register", 1, size);
    call = identified();
    step(&call);
    memcpy(sound, model.record, sizeof sound);
    keep_memory();
    call.function ^= 0xE0;
    step(&call);
    for (i = 0; i < sizeof sound; i++)
        if (model.record[i] != sound[i]) {
            place = i;
            places++;
        }
    if (places != 1)
        fail(&call, "at how many places two records differ", 1, places);
    sound_values_are(place, is_large() ? is_large_function : is_old_function, 0x48);
    compare_whole();
}

static void registers_changed(void)
{
    static const uint32_t old[] = {1, 4, 8, 16};
    size_t i;

    bank_byte_changed(old, COUNT(old));
    for (i = 0; i < COUNT(old); i++)
        function_byte_changed(old[i]);
    function_byte_changed(REF_LARGE);
}

/* ---- The two operations of a part that programs during erase suspend ---- */

/* Two states whose records differ in one field alone, and how many of the 256 values of the byte there are sound. */
struct pair {
    uint32_t sound_values;
    struct state one, other;
};

/* The fields of the two operations of a part that programs during erase suspend. */
static const struct pair pairs[] = {
    /* its page, within a sector erase: not one of the sector's 16 */
    {240,
     {"changed: the page of an inner program", 5, 1,
      {{1, {0x06}}, {4, {0xD7, 0x00, 0x30, 0x00}}, {1, {0x75}}, {1, {0x06}}, {6, {0x02, 0x00, 0x2F, 0x00, 1, 2}}}},
     {"", 5, 1,
      {{1, {0x06}}, {4, {0xD7, 0x00, 0x30, 0x00}}, {1, {0x75}}, {1, {0x06}}, {6, {0x02, 0x00, 0x2E, 0x00, 1, 2}}}}},
    /* its page, within a 32 KiB erase: not one of the 128 */
    {128,
     {"changed: the page of an inner program in half a block", 5, 1,
      {{1, {0x06}}, {4, {0x52, 0x00, 0x80, 0x00}}, {1, {0x75}}, {1, {0x06}}, {6, {0x02, 0x00, 0x2F, 0x00, 1, 2}}}},
     {"", 5, 1,
      {{1, {0x06}}, {4, {0x52, 0x00, 0x80, 0x00}}, {1, {0x75}}, {1, {0x06}}, {6, {0x02, 0x00, 0x2E, 0x00, 1, 2}}}}},
    /* its ticks done: fewer than its two bytes */
    {2,
     {"changed: the ticks of an inner program", 5, 0,
      {{1, {0x06}}, {4, {0xD7, 0x00, 0x30, 0x00}}, {1, {0x75}}, {1, {0x06}}, {6, {0x02, 0x00, 0x2F, 0x00, 1, 2}}}},
     {"", 5, 1,
      {{1, {0x06}}, {4, {0xD7, 0x00, 0x30, 0x00}}, {1, {0x75}}, {1, {0x06}}, {6, {0x02, 0x00, 0x2F, 0x00, 1, 2}}}}},
    /* the sector: one of 16, and not that of the program */
    {15,
     {"changed: the sector beneath an inner program", 5, 0,
      {{1, {0x06}}, {4, {0xD7, 0x00, 0x30, 0x00}}, {1, {0x75}}, {1, {0x06}}, {6, {0x02, 0x00, 0xF1, 0x00, 1, 2}}}},
     {"", 5, 0,
      {{1, {0x06}}, {4, {0xD7, 0x00, 0x20, 0x00}}, {1, {0x75}}, {1, {0x06}}, {6, {0x02, 0x00, 0xF1, 0x00, 1, 2}}}}},
    /* the sector's ticks done: fewer than 16 */
    {16,
     {"changed: the ticks of an erase beneath an inner program", 5, 0,
      {{1, {0x06}}, {4, {0xD7, 0x00, 0x30, 0x00}}, {1, {0x75}}, {1, {0x06}}, {6, {0x02, 0x00, 0x2F, 0x00, 1, 2}}}},
     {"", 6, 0,
      {{1, {0x06}}, {4, {0xD7, 0x00, 0x30, 0x00}}, {1, {0x75}}, {1, {0x06}}, {6, {0x02, 0x00, 0x2F, 0x00, 1, 2}}}}},
    /* the kind of erase: of a sector or of 32 KiB, for the one block holds the program's page */
    {2,
     {"changed: the kind of erase beneath an inner program", 5, 0,
      {{1, {0x06}}, {4, {0xD7, 0x00, 0x00, 0x00}}, {1, {0x75}}, {1, {0x06}}, {6, {0x02, 0x00, 0xF1, 0x00, 1, 2}}}},
     {"", 5, 0,
      {{1, {0x06}}, {4, {0x52, 0x00, 0x00, 0x00}}, {1, {0x75}}, {1, {0x06}}, {6, {0x02, 0x00, 0xF1, 0x00, 1, 2}}}}},
    /* with no program running: any sector */
    {16,
     {"changed: the suspended sector", 5, 0, {{1, {0x06}}, {4, {0xD7, 0x00, 0x30, 0x00}}, {1, {0x75}}, {1, {0x06}}}},
     {"", 5, 0, {{1, {0x06}}, {4, {0xD7, 0x00, 0x20, 0x00}}, {1, {0x75}}, {1, {0x06}}}}},
};

static void field_changed(const struct pair *pair)
{
    struct call call = transaction(2);
    uint8_t bytes[YAWLSPAR_RECORD_BYTES];
    uint32_t value, sound_values = 0;
    size_t place;

    begin(pair->one.name, 1, 1);
    place = place_that_differs(&pair->one, &pair->other);
    memcpy(bytes, sound, sizeof bytes);
    for (value = 0; value < 256; value++) {
        bytes[place] = (uint8_t)value;
        try_record(bytes);
        if (read_status(bytes) != 5)
            sound_values++;
    }
    if (sound_values != pair->sound_values)
        fail(&call, "how many values of the byte are sound", pair->sound_values, sound_values);
}

void damaged_records(void)
{
    size_t i;

    for (i = 0; i < COUNT(states); i++)
        change(&states[i], i + 1, 1);
    for (i = 0; i < COUNT(large_states); i++)
        change(&large_states[i], i + 1, REF_LARGE);
    registers_changed();
    stored_byte_changed();
    for (i = 0; i < COUNT(pairs); i++)
        field_changed(&pairs[i]);
    one_value(0x00);
    one_value(0xFF);
    random_bytes(1000);
}
