/* Scripts: yawlspar_script beside the reference model's script, and beside the model's own calls made one by one.
 *
 * Each script is run three times, on memory of its own each time: by yawlspar_script on the side `model`, by the
 * reference on the side `reference`, and step by step by yawlspar_transact and yawlspar_tick on the side `single`. The
 * result, the record's bytes, array, rows, output and each entry of the lists are then compared, with the guards around
 * them. The three sides hold the same bytes from call to call.
 *
 * The directed scripts have their numbers and steps worked out by hand from the specification. Records whose bytes were
 * changed are unknown to the reference: of them the two ways of the model are compared. The random scripts are made of
 * the steps of the random traffic, and of steps and lists that are wrong. */
#include "together.h"

#include "../traffic/draws.h"
#include "steps.h"

extern void *memcpy(void *, const void *, unsigned long);
extern void *memset(void *, int, unsigned long);

static const uint32_t sizes[] = {1, 4, 8, 16, REF_LARGE};

static struct call whole_script(void)
{
    return whole_call(SCRIPT);
}

/* ---- A script in each way ---- */

/* Of 512 blocks a part is compared, and after some of the scripts all of it, with the reference's too. */
static void same_as_single(const struct call *call)
{
    bool whole = scripts % 32 == 0;

    if (whole)
        same_memory(call);
    compare_with_single(call, whole ? same_memory : same_memory_in_part);
}

static void whole_is_same(void)
{
    struct call call = fitting(TICK);

    compare_with_single(&call, same_memory);
}

/* Runs the script in all three ways. Gives the result. */
static uint64_t run_script(const struct call *call)
{
    uint64_t got, expected;

    prepare_side(&single, call);
    got = step(call);
    expected = make_one_by_one(&single, call);
    if (got != expected)
        fail_result(call, expected, got);
    same_as_single(call);
    return got;
}

/* The same of the model alone, where the reference does not know the record. */
static uint64_t run_script_alone(const struct call *call)
{
    uint64_t got, expected;

    prepare_side(&model, call);
    prepare_side(&single, call);
    got = call_model(&model, call);
    expected = make_one_by_one(&single, call);
    if (got != expected)
        fail_result(call, expected, got);
    compare_with_single(call, same_memory_in_part);
    return got;
}

/* ---- Worked out by hand ---- */

static void call_is(const struct call *call, uint64_t number, uint64_t at)
{
    uint64_t got = run_script(call);

    if (YAWLSPAR_NUMBER(got) != number)
        fail(call, "the number of a script", number, YAWLSPAR_NUMBER(got));
    if (YAWLSPAR_STEP(got) != at)
        fail(call, "the step of a script", at, YAWLSPAR_STEP(got));
}

static void script_is(uint64_t number, uint64_t at)
{
    struct call call = whole_script();

    call_is(&call, number, at);
}

static void entry_is(size_t k, uint64_t answer, uint64_t done)
{
    struct call call = whole_script();

    if (model.answers[k] != answer)
        fail(&call, "the answer of a step", answer, model.answers[k]);
    if (model.done[k] != done)
        fail(&call, "the ticks done of a step", done, model.done[k]);
}

static void output_at(size_t place, uint8_t expected)
{
    struct call call = whole_script();

    if (model.output[place] != expected)
        fail(&call, "an output byte of a script", expected, model.output[place]);
}

static void begin(const char *name, uint32_t blocks)
{
    begin_run(name, 1, blocks);
    powered(blocks);
    begin_single();
    no_steps();
}

/* ---- Stops ---- */

/* A sector erase that is not done when the script ends, so that ticks which should not pass show. */
static void add_plain_step(size_t k)
{
    switch (k) {
    case 0:
        add_code(0x06, 0);
        break;
    case 1:
        add("\x20\x00\x20\x00", 4, 5);
        break;
    case 2:
        add("\x05\x00", 2, 2);
        break;
    case 3:
        add_code(0x75, 9);
        break;
    case 4:
        add("\x03\x00\x24\x00\x00\x00", 6, 0);
        break;
    default:
        add_code(0x7A, 3);
        break;
    }
}

#define PLAIN_STEPS 6u

/* A step that stops the script. Those that stop it by 6 have a code that is answered alike idle, busy and suspended. */
static const struct stop {
    uint8_t code;
    uint16_t length, ticks;
    uint64_t number; /* of the script */
    uint64_t answer; /* of the step */
} stops[] = {
    {0x05, 0, 0, 3, 3},        {0x05, 0, 4, 3, 3},     {0x05, 4097, 0, 3, 3},    {0x05, 4097, 4, 3, 3},
    {0x03, 4098, 65535, 3, 3}, {0x06, 65535, 1, 3, 3}, {0x05, 0, 4097, 3, 3},    {0x05, 4097, 4097, 3, 3},
    {0x05, 2, 4097, 6, 0},     {0x05, 2, 65535, 6, 0}, {0x05, 4096, 4097, 6, 0}, {0x5A, 1, 4097, 6, 20},
    {0x66, 1, 4097, 6, 0},     {0x66, 1, 65535, 6, 0}, {0x48, 3, 8192, 6, 0},    {0x9F, 0, 65535, 3, 3},
};

/* A part of 512 blocks takes any number of ticks that 16 bits hold. */
static bool stops_script(const struct stop *stop)
{
    return stop->number == 3 || !on_large();
}

static void stop_at(const struct stop *stop, size_t at)
{
    size_t k;

    fresh(0, 0);
    no_steps();
    for (k = 0; k <= PLAIN_STEPS; k++) {
        if (k == at)
            add_long(stop->code, stop->length, stop->ticks);
        if (k < PLAIN_STEPS)
            add_plain_step(k);
    }
    if (!stops_script(stop)) {
        script_is(0, PLAIN_STEPS + 1);
        return;
    }
    script_is(stop->number, at);
    entry_is(at, stop->answer, 0);
}

static void all_stops(void)
{
    size_t i, at;

    name_run("scripts: stops");
    for (i = 0; i < COUNT(stops); i++)
        for (at = 0; at <= PLAIN_STEPS; at++)
            stop_at(&stops[i], at);
}

/* What a stop by 6 leaves, byte by byte: a transaction that was made. And the lowest step where two would stop. */
static void stop_is_kept(void)
{
    name_run("scripts: a stop by 6 leaves its transaction");
    fresh(0, 0);
    no_steps();
    add("\x05\x00", 2, 0);
    add_code(0x06, 65535);
    add("\x05\x00", 2, 0);
    if (on_large()) {
        script_is(0, 3);
        output_at(4, WEL);
        return;
    }
    script_is(6, 1);
    entry_is(0, 0, 0);
    entry_is(1, 0, 0);
    output_at(1, 0x00);
    output_at(2, 0xFF);
    no_steps();
    add("\x05\x00", 2, 4096);
    add_code(0xC7, 4097);
    add("", 0, 0);
    script_is(6, 1);
    output_at(1, WEL);
    no_steps();
    add("\x05\x00", 2, 1); /* the chip erase was begun, and no tick passed */
    add("\x05\x00", 2, 0);
    add("", 0, 0);
    add_code(0x06, 4097);
    script_is(3, 2);
    entry_is(0, 0, 1);
    entry_is(1, 0, 0);
    entry_is(2, 3, 0);
    output_at(1, WEL | WIP);
    output_at(3, WEL | WIP);
}

/* ---- Lists and refusals before the first step ---- */

#define ALL_FAULTS (ARRAY | ROWS | LISTS | SUM | OUTPUT | LEVEL)

static struct call spoilt(uint32_t faults, uint32_t which)
{
    struct call call = whole_script();

    spoil_call(&call, faults, which);
    return call;
}

/* A script for a part that is busy and armed: if it runs where it should not, that shows in all that it is lent. */
static void add_telling_steps(void)
{
    add("\x05\x00", 2, 2);
    add_code(0x66, 1);
    add("\x05\x00\x00", 3, 0);
    add_code(0x04, 1);
}

static void busy_and_armed(void)
{
    fresh(0, 0);
    no_steps();
    add_code(0x06, 0);
    add("\xD7\x00\x10\x00", 4, 2);
    add_code(0x66, 1);
    script_is(0, 3);
    no_steps();
}

/* Each set of one fault or more, on the script as it is. */
static void each_set_of_faults(uint32_t which)
{
    uint32_t faults;

    for (faults = 1; faults <= ALL_FAULTS; faults++) {
        struct call call = spoilt(faults, which + faults);

        call_is(&call, refused_with(faults, true), 0);
    }
}

static void each_set_without_record(uint32_t which)
{
    uint32_t faults;

    for (faults = 0; faults <= ALL_FAULTS; faults++) {
        struct call call = spoilt(faults, which + faults);

        call.record = no_record_length(which + faults);
        call_is(&call, refused_with(faults, false), 0);
    }
}

static void refusals(uint32_t times)
{
    uint32_t which;

    name_run("scripts: refusals in their order");
    busy_and_armed();
    add_telling_steps();
    for (which = 0; which < times; which++) {
        each_set_of_faults(which);
        each_set_without_record(which);
    }
    script_is(0, 4); /* and with no fault it runs */
    entry_is(0, 0, 2);
    entry_is(1, 0, 1);
    entry_is(2, 0, 0);
    entry_is(3, 22, 1);
}

/* The same of a script that would stop at its first step, with 3 or with 6: these come after all others. */
static void refusals_before_stops(void)
{
    name_run("scripts: refusals before a stop");
    fresh(0, 0);
    no_steps();
    add("", 0, 0);
    add_code(0x06, 1);
    each_set_of_faults(0);
    each_set_without_record(1);
    script_is(3, 0);
    no_steps();
    add_code(0x06, 65535);
    add_code(0x04, 0);
    each_set_of_faults(2);
    each_set_without_record(3);
    script_is(on_large() ? 0 : 6, on_large() ? 2 : 0);
}

static void each_list(void)
{
    uint32_t which;

    name_run("scripts: lists of other lengths");
    busy_and_armed();
    add_telling_steps();
    for (which = 0; which < 8; which++) {
        struct call call = spoilt(LISTS, which);

        call_is(&call, 7, 0);
        call = spoilt(LISTS | OUTPUT, which); /* 7 comes before 4 */
        call_is(&call, 7, 0);
    }
    for (which = 0; which < 6; which++) {
        struct call call = spoilt(SUM, which);

        call_is(&call, 7, 0);
    }
    for (which = 0; which < 8; which++) {
        struct call call = spoilt(OUTPUT, which);

        call_is(&call, 4, 0);
    }
}

static void empty_scripts(void)
{
    uint32_t which;

    name_run("scripts: no steps");
    busy_and_armed();
    script_is(0, 0);
    for (which = 0; which < 4; which++) {
        each_set_of_faults(which);
        each_set_without_record(which);
    }
    fresh(0, 0);
    script_is(0, 0);
}

static void levels(void)
{
    static const uint64_t none[] = {2, 3, 255, 256, 257, UINT64_C(1) << 32, (UINT64_C(1) << 32) + 1,
                                    UINT64_C(1) << 63, UINT64_MAX};
    struct call call;
    size_t i;

    name_run("scripts: levels of WP#");
    fresh(0x80, 0); /* SRWD */
    no_steps();
    add_code(0x06, 0);
    add("\x01\x84", 2, 1);
    add("\x05\x00", 2, 0);
    call = whole_script();
    call.wp_high = 0;
    call_is(&call, 0, 3);
    entry_is(1, 28, 0);
    output_at(4, 0x80 | WEL);
    for (i = 0; i < COUNT(none); i++) {
        call.wp_high = none[i];
        call_is(&call, 5, 0);
    }
    call.wp_high = 1;
    call_is(&call, 0, 3);
    entry_is(1, 0, 1);
    output_at(4, 0x84);
}

/* ---- The part ignores transactions, and the script goes on ---- */

static void ignored_in_the_middle(void)
{
    static const struct {
        uint8_t length, bytes[5];
        uint16_t ticks;
        uint8_t answer, done;
    } all[] = {
        {1, {0x5A}, 3, 20, 0},
        {2, {0x06, 0x00}, 0, 24, 0},
        {1, {0x75}, 1, 25, 0},
        {5, {0x02, 0x00, 0x00, 0x00, 0x00}, 1, 26, 0},
        {1, {0x06}, 0, 0, 0},
        {4, {0x64, 0x00, 0x01, 0x00}, 1, 27, 0},
        {2, {0x01, 0x28}, 2, 0, 1}, /* code 10 protects all blocks, on each size */
        {1, {0x06}, 7, 0, 0},
        {4, {0x20, 0x00, 0x00, 0x00}, 16, 28, 0},
        {2, {0x81, 0x00}, 0, 0, 0},
        {2, {0x01, 0x00}, 1, 0, 1},
        {1, {0xB9}, 0, 0, 0},
        {2, {0x05, 0x00}, 4096, 21, 0},
        {1, {0xAB}, 0, 0, 0},
        {1, {0x06}, 0, 0, 0},
        {4, {0x20, 0x00, 0x30, 0x00}, 3, 0, 3},
        {5, {0x03, 0x00, 0x00, 0x00, 0x00}, 4, 22, 4},
        {1, {0x75}, 5, 0, 0},
        {4, {0xD8, 0x00, 0x00, 0x00}, 6, 23, 0},
        {1, {0x7A}, 4096, 0, 9},
        {2, {0x05, 0x00}, 0, 0, 0},
    };
    size_t k;

    name_run("scripts: 20 to 28");
    fresh(0, 0);
    no_steps();
    for (k = 0; k < COUNT(all); k++)
        add(all[k].bytes, all[k].length, all[k].ticks);
    script_is(0, COUNT(all));
    for (k = 0; k < COUNT(all); k++)
        entry_is(k, all[k].answer, all[k].done);
    output_at(bytes - 1, 0x00);
    output_at(bytes - 2, 0xFF);
}

/* ---- Long scripts ---- */

/* Pages programmed one after the other, each with its ticks and a status read: more than 65,535 bytes in all. */
static void many_pages(void)
{
    uint8_t program[4 + REF_PAGE] = {0x02};
    size_t page, i;

    name_run("scripts: many pages");
    fresh(0, 0);
    no_steps();
    add_code(0x06, 0);
    add("\xD8\x00\x00\x00", 4, 256);
    for (page = 0; page < 252; page++) {
        program[2] = (uint8_t)page;
        for (i = 0; i < REF_PAGE; i++)
            program[4 + i] = (uint8_t)(page * 3 + i * 7);
        add_code(0x06, 0);
        add(program, sizeof program, 256);
        add("\x05\x00", 2, 0);
    }
    script_is(0, 2 + 3 * 252);
    entry_is(1, 0, 256);
    entry_is(3, 0, 256);
    entry_is(3 * 252, 0, 256);
    output_at(bytes - 1, 0x00);
    for (i = 0; i < 252 * REF_PAGE; i++)
        if (model.array[i] != (uint8_t)(i / REF_PAGE * 3 + i % REF_PAGE * 7)) {
            struct call call = whole_script();

            fail(&call, "the first byte of the array that was not programmed", 252 * REF_PAGE, i);
        }
    no_steps();
    for (i = 0; i < 20; i++)
        add_long(0x03, 4096, 0);
    script_is(0, 20);
    output_at(bytes - 1, model.array[4091]);
    script.lengths[19] = 4097; /* a byte more, which only the last step has */
    bytes++;
    script_is(3, 19);
}

/* More than 65,536 steps, and stops at steps whose numbers need more than 8 and more than 16 bits. */
static void many_steps(void)
{
    static const size_t stopping[] = {65536, 65535, 300, 256, 255};
    size_t i;

    name_run("scripts: many steps");
    fresh(0, 0);
    no_steps();
    add_code(0x06, 0);
    add_code(0xC7, 0);
    while (steps < STEPS_ROOM - 1)
        add_code(0x05, steps % 1000 == 0);
    script_is(0, STEPS_ROOM - 1);
    entry_is(65000, 0, 1);
    entry_is(65001, 0, 0);
    for (i = 0; i < COUNT(stopping); i++) {
        script.ticks[stopping[i]] = 4097;
        script_is(6, stopping[i]);
        entry_is(stopping[i], 0, 0);
    }
}

/* The lengths add up to the input but for a multiple of 65,536, or of 2^32. */
static void great_sums(void)
{
    struct call call;
    size_t i;

    name_run("scripts: great sums");
    fresh(0, 0);
    no_steps();
    for (i = 0; i < 16; i++)
        add_long(0x05, 4096, 0);
    add_code(0x06, 0);
    call = whole_script();
    call.input = call.output = 1;
    call_is(&call, 7, 0);
    call.input = call.output = 0;
    call_is(&call, 7, 0);
    script_is(0, 17);
    for (i = 0; i < 65537; i++) {
        script.lengths[i] = 65535;
        script.ticks[i] = 0;
    }
    script.lengths[65537] = 2;
    script.ticks[65537] = 0;
    call.lengths = call.tick_counts = call.answers = call.done = 65538;
    call.input = call.output = 1; /* the sum is 2^32 + 1 */
    call_is(&call, 7, 0);
}

/* The most ticks that a step has: a chip erase, and on 512 blocks one in three steps. */
static void most_ticks(void)
{
    uint64_t all = stored_length() / REF_PAGE;

    name_run("scripts: the most ticks");
    fresh(0, 0);
    no_steps();
    add_code(0x06, 0);
    if (on_large()) {
        add_code(0xC7, 65535);
        add("\x05\x00", 2, 65535);
        add("\x05\x00", 2, 65535);
        script_is(0, 4);
        entry_is(1, 0, 65535);
        entry_is(2, 0, 65535);
        entry_is(3, 0, 2);
        output_at(5, WEL | WIP);
    } else {
        add_code(0xC7, 4096);
        add("\x05\x00", 2, 4096);
        script_is(0, 3);
        entry_is(1, 0, all);
        entry_is(2, 0, 0);
        output_at(3, 0x00);
    }
    whole_is_same();
}

static void directed_on(uint32_t blocks)
{
    begin("scripts", blocks);
    all_stops();
    stop_is_kept();
    refusals(blocks == 1 ? 24 : 2);
    refusals_before_stops();
    each_list();
    empty_scripts();
    levels();
    ignored_in_the_middle();
    many_pages();
    most_ticks();
    if (blocks == 1) {
        many_steps();
        great_sums();
    }
    end_run();
    whole_is_same();
}

/* ---- Records whose bytes were changed ---- */

static void set_record(const uint8_t *record)
{
    memcpy(model.record, record, YAWLSPAR_RECORD_BYTES);
    memcpy(single.record, record, YAWLSPAR_RECORD_BYTES);
}

/* A script that runs if the record is sound, and the same with faults: 2, 7 and 4 come before the 5 of a record that is
 * none or not sound. */
static void try_record(const uint8_t *record, uint32_t which)
{
    struct call call = whole_script();
    uint64_t alone, number;
    uint32_t fault;

    set_record(record);
    alone = YAWLSPAR_NUMBER(run_script_alone(&call));
    if (alone != 0 && alone != 1 && alone != 5)
        fail(&call, "the number of a script with a changed record", 5, alone);
    set_record(record);
    for (fault = ARRAY; fault <= OUTPUT; fault *= 2) {
        uint32_t faults = fault | (which % 2 == 0 ? OUTPUT : 0);

        call = spoilt(faults, which);
        number = YAWLSPAR_NUMBER(run_script_alone(&call));
        if (fault != ARRAY && number != (alone == 1 ? 1 : refused_with(faults, true)))
            fail(&call, "the number of a script with a changed record and a fault", refused_with(faults, true), number);
    }
}

static void each_byte_changed(void)
{
    uint8_t sound[YAWLSPAR_RECORD_BYTES], changed[YAWLSPAR_RECORD_BYTES];
    size_t i, k;

    memcpy(sound, model.record, sizeof sound);
    for (i = 0; i < sizeof sound; i++) {
        const uint8_t values[] = {0x00, 0xFF, (uint8_t)(sound[i] ^ 0x01), (uint8_t)(sound[i] ^ 0x80)};

        memcpy(changed, sound, sizeof changed);
        for (k = 0; k < COUNT(values); k++) {
            changed[i] = values[k];
            try_record(changed, (uint32_t)(i + k));
        }
    }
    try_record(sound, 0);
}

static void one_value(uint8_t value)
{
    uint8_t record[YAWLSPAR_RECORD_BYTES];

    memset(record, value, sizeof record);
    try_record(record, value);
}

/* A record of zeros was never powered up: it has no size. */
static void record_of_zeros(void)
{
    uint8_t zeros[YAWLSPAR_RECORD_BYTES] = {0};
    uint32_t faults;

    for (faults = 0; faults <= ALL_FAULTS; faults++) {
        struct call call = spoilt(faults, faults);
        uint64_t result;

        set_record(zeros);
        result = run_script_alone(&call);
        if (result != 1)
            fail(&call, "the result of a script on a record of zeros", 1, result);
    }
}

/* What is sent to a fresh part, to bring it to the state whose record is changed. */
struct state {
    const char *name;
    struct {
        uint8_t length, bytes[7];
        uint16_t ticks;
    } sent[6];
};

static const struct state states[] = {
    {"scripts: changed while armed", {{1, {0x66}, 0}}},
    {"scripts: changed in sleep", {{1, {0xB9}, 0}}},
    {"scripts: changed in a program", {{1, {0x06}, 0}, {7, {0x02, 0x00, 0x12, 0xFE, 1, 2, 3}, 1}}},
    {"scripts: changed in erase suspend",
     {{1, {0x06}, 0}, {4, {0xD8, 0x00, 0x00, 0x00}, 9}, {1, {0x75}, 0}, {1, {0x06}, 0}}},
    {"scripts: changed in a program within an erase",
     {{1, {0x06}, 0}, {4, {0xD7, 0x00, 0x30, 0x00}, 5}, {1, {0x75}, 0}, {1, {0x06}, 0},
      {6, {0x02, 0x00, 0x2F, 0xFF, 8, 7}, 1}, {1, {0x66}, 0}}},
    {"scripts: changed in a status write", {{1, {0x06}, 0}, {2, {0x01, 0xBC}, 0}}},
};

static void changed_in(const struct state *state)
{
    size_t k;

    begin(state->name, 1);
    for (k = 0; k < COUNT(state->sent) && state->sent[k].length > 0; k++)
        add(state->sent[k].bytes, state->sent[k].length, state->sent[k].ticks);
    script_is(0, steps);
    no_steps();
    add("\x05\x00", 2, 1);
    add_code(0x06, 2);
    add("\x02\x00\x12\x34\x56", 5, 1);
    each_byte_changed();
}

static void changed_records(void)
{
    size_t i;

    for (i = 0; i < COUNT(states); i++)
        changed_in(&states[i]);
    record_of_zeros();
    one_value(0x00);
    one_value(0x01);
    one_value(0xFF);
}

void directed_scripts(void)
{
    size_t i;

    for (i = 0; i < COUNT(sizes); i++)
        directed_on(sizes[i]);
    changed_records();
}

/* ---- Random scripts ---- */

static void begin_scripts(void)
{
    begin_single();
    no_steps();
    steps_enough = 1;
}

static size_t draw_steps(void)
{
    if (one_in(10))
        return between(100, 1500);
    return one_in(4) ? between(1, 3) : between(2, 60);
}

static void run_steps(void)
{
    struct call call = whole_script();

    if (steps == 0)
        return;
    call.wp_high = level;
    run_script(&call);
    no_steps();
    steps_enough = draw_steps();
}

/* A step that stops the script: by its length or by its ticks, which on 512 blocks it does not. */
static void add_wrong_step(void)
{
    static const uint8_t codes[] = {0x05, 0x06, 0x04, 0x66, 0x03, 0x99, 0xC7, 0x75, 0x7A, 0x5A};
    static const uint32_t lengths[] = {0, 0, 0, REF_MOST + 1, REF_MOST + 2, 8192, 65535};
    static const uint32_t ticks[] = {4097, 4098, 8192, 32768, 61440, 65535};
    uint8_t code = pick_byte(codes, COUNT(codes));

    if (one_in(2))
        add_long(code, lengths[below(COUNT(lengths))], one_in(2) ? 0 : below(40));
    else
        add_long(code, between(1, 3), ticks[below(COUNT(ticks))]);
}

static void script_send(bool wp_high, const uint8_t *sent, size_t length)
{
    gather(wp_high, sent, length, run_steps);
    if (one_in(400))
        add_wrong_step();
}

/* The ticks of the last step, or those of a status read if it has some. Where 16 bits do not hold them, and now and
 * then, a call of their own. */
static void script_wait(uint32_t ticks)
{
    if (fits_step(ticks) && !one_in(50)) {
        add_ticks(ticks);
        return;
    }
    run_steps();
    make_ticks(ticks);
}

static void script_power_up(const struct call *call)
{
    run_steps();
    make_call(call);
}

/* The steps so far with faults, none of which may be seen. */
static void strange_script(void)
{
    uint32_t faults = 1u << below(6);
    struct call call;

    while (one_in(2))
        faults |= 1u << below(6);
    call = spoilt(faults, below(24));
    if (one_in(8))
        call.record = no_record_length(below(5));
    if (one_in(8))
        call.array = below(17) * REF_BLOCK + below(2);
    run_script(&call);
}

static void script_strange(void)
{
    if (one_in(4))
        strange_script();
    else if (one_in(4))
        add_wrong_step();
    else
        script_wait(below(21));
}

/* The steps of several scenes make a script, so most of the time `part` is not as they leave it. */
static void script_settle(void)
{
    if (steps >= steps_enough || one_in(4))
        run_steps();
}

static const struct takers in_scripts = {begin_scripts, script_power_up, script_send,
                                         script_wait,   script_strange,  script_settle};

void random_scripts(uint64_t seed, uint64_t least)
{
    play_traffic(&in_scripts, "random scripts", seed, least);
    run_steps();
    whole_is_same();
}
