/*
 * Checks of scripts: yawlspar_check beside the reference model's check, and beside yawlspar_script with a plain compare.
 *
 *   check               the directed checks, and right, wrong and random scripts of the seeds 1 to 30
 *   check FIRST LAST    right, wrong and random scripts of the seeds FIRST to LAST alone
 *
 * Each check is made three times, on memory of its own each time: by yawlspar_check on the side `model`, by the reference
 * on the side `reference`, and on the side `single` by yawlspar_script, after which array and image are compared here.
 * The result, the record's bytes, array, rows, output, each entry of the lists and the image are then compared, with the
 * guards around them.
 *
 * A right script, as right.h defines it, has to have the verdict yes on an unprotected part that is idle and awake. That
 * is asked of every script that is checked here. What is known of the verdicts of wrong ones is worked out by hand.
 *
 * The program prints one line with the number of checks and of differences. The first difference ends it: it is told
 * before that line, and the exit status is 1. Bad usage is 2.
 */
#include "right.h"

#include "../traffic/draws.h"
#include "steps.h"

extern int printf(const char *format, ...) __attribute__((format(printf, 1, 2)));
extern int memcmp(const void *, const void *, unsigned long);
extern void *memcpy(void *, const void *, unsigned long);
extern void *memset(void *, int, unsigned long);

const char *const program_name = "check";

#define LAST_SEED 30u
#define SECTORS_MOST (REF_LARGE * REF_BLOCK / SECTOR)
#define BANK 0x1000000u

static const uint32_t sizes[] = {1, 4, 8, 16, REF_LARGE};

static uint64_t rights, accepted; /* checks of right scripts, and those with the verdict yes */

/* ---- What the parts hold, and what they should hold ---- */

/* Of 512 blocks only the sectors that the script at hand may write are compared whole. */
static uint32_t used[SECTORS_MOST];
static size_t used_count;
static bool is_used[SECTORS_MOST];

static void use(size_t at, size_t length)
{
    size_t sector;

    for (sector = at / SECTOR; sector * SECTOR < at + length; sector++)
        if (!is_used[sector]) {
            is_used[sector] = true;
            used[used_count++] = (uint32_t)sector;
        }
}

static void same_used(const struct call *call)
{
    size_t i;

    for (i = 0; i < used_count; i++)
        same_places(call, (size_t)used[i] * SECTOR, SECTOR);
}

static void want_places(size_t at, size_t length)
{
    memcpy(model.image + at, model.array + at, length);
    memcpy(reference.image + at, model.array + at, length);
}

static void use_nothing(void)
{
    used_count = 0;
    memset(is_used, 0, sizeof is_used);
}

/* The image is what the array holds, and no sector is in use. Of 512 blocks those in use may have differed. */
static void want_what_is_there(void)
{
    size_t i;

    if (!on_large())
        want_places(0, stored_length());
    else
        for (i = 0; i < used_count; i++)
            want_places((size_t)used[i] * SECTOR, SECTOR);
    use_nothing();
}

static void set_stored(size_t at, const uint8_t *content, size_t length)
{
    use(at, length);
    memcpy(model.array + at, content, length);
    memcpy(reference.array + at, content, length);
    memcpy(single.array + at, content, length);
}

static void set_wanted(size_t at, const uint8_t *content, size_t length)
{
    use(at, length);
    memcpy(model.image + at, content, length);
    memcpy(reference.image + at, content, length);
}

/* The sectors that the script writes are in use. */
static void use_what_is_written(void)
{
    struct write_step write;
    size_t k, from = 0;

    for (k = 0; k < steps; k++) {
        if (read_write(&part, k, from, &write))
            use(write.address, 1);
        from += script.lengths[k];
    }
}

static void begin_sides(void)
{
    begin_single();
    begin_images();
    use_nothing();
    no_steps();
}

static void begin(const char *name, uint64_t seed, uint32_t blocks)
{
    begin_run(name, seed, blocks);
    powered(blocks);
    begin_sides();
}

static void end(void)
{
    struct call call = fitting(TICK);

    end_run();
    compare_with_single(&call, same_memory);
}

/* ---- The same by a script and a plain compare ---- */

static uint64_t at_step(size_t step)
{
    return 256 * YAWLSPAR_AT_STEP + 65536 * (uint64_t)step;
}

static uint64_t at_address(size_t address)
{
    return 256 * YAWLSPAR_AT_ADDRESS + 65536 * (uint64_t)address;
}

/* The registers say it, read from a copy of the record: a part that is asleep does not show them, and is idle. */
static bool single_is_idle(const struct call *call)
{
    static const uint8_t reads[2][2] = {{0x05, 0x00}, {0x48, 0x00}};
    uint8_t record[YAWLSPAR_RECORD_BYTES], shown[2][2];
    size_t i;

    memcpy(record, single.record, sizeof record);
    for (i = 0; i < 2; i++)
        if (yawlspar_transact(record, sizeof record, single.array, call->array, single.rows, call->rows, 1, reads[i], 2,
                              shown[i], 2) == YAWLSPAR_ASLEEP + 2 * 256)
            return true;
    return (shown[0][1] & WIP) == 0 && (shown[1][1] & (ESUS | PSUS)) == 0;
}

/* What a check says of a script that had this result. */
static uint64_t judge_singly(const struct call *call, uint64_t result)
{
    bool stopped = YAWLSPAR_NUMBER(result) != 0;
    size_t k;

    for (k = 0; k < call->lengths; k++)
        if ((stopped && YAWLSPAR_STEP(result) == k) || single.answers[k] != YAWLSPAR_EXECUTED)
            return at_step(k);
    if (!single_is_idle(call))
        return at_step(k);
    if (memcmp(single.array, single.image, call->array) == 0)
        return 0;
    for (k = 0; single.array[k] == single.image[k]; k++)
        ;
    return at_address(k);
}

/* 1 is the number that a call with no ticks has, too. */
static uint64_t check_singly(const struct call *call)
{
    struct call lent = *call, run = *call;
    uint64_t result;

    lent.kind = TICK;
    lent.ticks = 0;
    if (YAWLSPAR_NUMBER(call_model(&single, &lent)) == YAWLSPAR_BAD_SIZE)
        return YAWLSPAR_BAD_SIZE;
    if (call->image != call->array)
        return YAWLSPAR_BAD_IMAGE;
    run.kind = SCRIPT;
    result = call_model(&single, &run);
    switch (YAWLSPAR_NUMBER(result)) {
    case YAWLSPAR_EXECUTED:
    case YAWLSPAR_BAD_INPUT:
    case YAWLSPAR_BAD_TICKS:
        return judge_singly(call, result);
    default:
        return YAWLSPAR_NUMBER(result);
    }
}

/* ---- A check in all three ways ---- */

static void same_sides(const struct call *call)
{
    if (!on_large()) {
        compare_with_single(call, same_memory);
        return;
    }
    same_used(call);
    compare_with_single(call, same_memory_in_part);
    compare_with_single(call, same_used);
}

static bool is_right; /* of the last check: was its script a right one? */

static bool has_right_lengths(const struct call *call)
{
    return call->record == YAWLSPAR_RECORD_BYTES && part.size != 0 && call->array == stored_length() &&
           call->image == call->array && call->rows == REF_ROWS && lists_fit(call) && call->output == call->input;
}

/* Whether the script is right is asked before it runs, on the part, array and image that it finds. */
static uint64_t run_check(const struct call *call)
{
    bool must_pass;
    uint64_t got, expected;

    is_right = has_right_lengths(call) && right_script(&part, reference.array, reference.image);
    must_pass = is_right && call->wp_high <= 1 && may_begin(&part);
    prepare_side(&single, call);
    got = step(call);
    expected = check_singly(call);
    if (got != expected)
        fail_result(call, expected, got);
    same_sides(call);
    if (must_pass && got != 0)
        fail_result(call, 0, got);
    rights += is_right;
    accepted += got == 0;
    return got;
}

/* The same of the model alone, where the reference does not know the record. */
static uint64_t run_check_alone(const struct call *call)
{
    uint64_t got, expected;

    prepare_side(&model, call);
    prepare_side(&single, call);
    got = call_model(&model, call);
    expected = check_singly(call);
    if (got != expected)
        fail_result(call, expected, got);
    compare_with_single(call, same_memory_in_part);
    return got;
}

static void call_is(const struct call *call, uint64_t expected)
{
    uint64_t got;

    use_what_is_written();
    got = run_check(call);
    if (got != expected)
        fail_result(call, expected, got);
    want_what_is_there();
}

static void check_is(uint64_t expected)
{
    struct call call = whole_call(CHECK);

    call_is(&call, expected);
}

/* ---- A small right script, and each of its clauses broken ---- */

/* Of the second sector, all 00h, three bytes are to be others and the rest FFh. Of the first one, all FFh, four bytes are
 * to be others, two on each side of a page border. The third one, which is any bytes but FFh, is to stay. */
static void small_content(void)
{
    static uint8_t content[SECTOR];

    fresh(0, 0);
    no_steps();
    memset(content, 0xFF, SECTOR);
    set_stored(0x0000, content, SECTOR);
    set_wanted(0x0000, content, SECTOR);
    set_wanted(0x00FE, (const uint8_t *)"\x11\x22\x33\x44", 4);
    set_wanted(0x1000, content, SECTOR);
    set_wanted(0x1010, (const uint8_t *)"\xA1\xA2\xA3", 3);
    memset(content, 0x00, SECTOR);
    set_stored(0x1000, content, SECTOR);
    memset(content, 0x5A, SECTOR);
    set_stored(0x2000, content, SECTOR);
    set_wanted(0x2000, content, SECTOR);
}

static void small_step(size_t k)
{
    switch (k) {
    case 1:
        add("\x20\x00\x10\x00", 4, 16);
        break;
    case 3:
        add("\x02\x00\x10\x10\xA1\xA2\xA3", 7, 3);
        break;
    case 5:
        add("\x02\x00\x00\xFE\x11\x22", 6, 2);
        break;
    case 7:
        add("\x02\x00\x01\x00\x33\x44", 6, 2);
        break;
    default:
        add_code(0x06, 0);
        break;
    }
}

#define SMALL_STEPS 8u

static void small_steps(size_t from, size_t to)
{
    for (; from < to; from++)
        small_step(from);
}

static void right_one(void)
{
    small_steps(0, SMALL_STEPS);
}

static void no_erase(void)
{
    small_steps(2, SMALL_STEPS);
}

static void erase_of_another_sector(void)
{
    right_one();
    script.input[3] = 0x20;
}

static void an_erase_too_many(void)
{
    add_code(0x06, 0);
    add("\xD7\x00\x2A\xBC", 4, 16);
    right_one();
}

static void another_value(void)
{
    right_one();
    script.input[bytes - 1] = 0x40;
}

static void a_byte_too_few(void)
{
    small_steps(0, 7);
    add("\x02\x00\x01\x00\x33", 5, 1);
}

static void a_byte_too_many(void)
{
    small_steps(0, 7);
    add("\x02\x00\x01\x00\x33\x44\x7F", 7, 3);
}

static void a_program_too_few(void)
{
    small_steps(0, 6);
}

static void over_the_border(void)
{
    small_steps(0, 5);
    add("\x02\x00\x00\xFE\x11\x22\x33\x44", 8, 4);
}

/* Of 257 bytes the first one is lost, and the last one goes to its place. */
static void more_than_a_page(void)
{
    uint8_t program[4 + 257] = {0x02, 0x00, 0x30, 0x00}, blank[256];
    size_t i;

    for (i = 4; i < sizeof program; i++)
        program[i] = (uint8_t)(3 * i % 251);
    memset(blank, 0xFF, sizeof blank);
    set_stored(0x3000, blank, sizeof blank);
    set_wanted(0x3000, program + 4, sizeof blank);
    right_one();
    add_code(0x06, 0);
    add(program, sizeof program, 256);
}

static void no_enable_for_an_erase(void)
{
    small_steps(1, SMALL_STEPS);
}

static void no_enable_for_a_program(void)
{
    small_steps(0, 4);
    small_steps(5, SMALL_STEPS);
}

static void enable_of_two_bytes(void)
{
    small_steps(0, 4);
    add("\x06\x00", 2, 0);
    small_steps(5, SMALL_STEPS);
}

static void erase_of_five_bytes(void)
{
    add_code(0x06, 0);
    add("\x20\x00\x10\x00\x00", 5, 16);
    small_steps(2, SMALL_STEPS);
}

static void program_of_no_byte(void)
{
    right_one();
    add_code(0x06, 0);
    add("\x02\x00\x01\x00", 4, 0);
}

static void erase_with_a_tick_too_few(void)
{
    right_one();
    script.ticks[1] = 15;
}

static void program_with_a_tick_too_few(void)
{
    right_one();
    script.ticks[5] = 1;
}

static void last_with_a_tick_too_few(void)
{
    right_one();
    script.ticks[7] = 1;
}

static void last_erase_with_a_tick_too_few(void)
{
    add_code(0x06, 0);
    add("\x20\x00\x10\x00", 4, 15);
}

static void no_ticks_at_all(void)
{
    right_one();
    memset(script.ticks, 0, SMALL_STEPS * sizeof script.ticks[0]);
}

static void suspended_at_the_end(void)
{
    last_with_a_tick_too_few();
    add_code(0x75, 100);
}

static void erase_suspended_at_the_end(void)
{
    last_erase_with_a_tick_too_few();
    add_code(0xB0, 100);
    add_code(0x06, 0);
    add("\x02\x00\x00\xFE\x11\x22", 6, 2);
}

static void program_within_at_the_end(void)
{
    erase_suspended_at_the_end();
    script.ticks[4] = 1;
}

static void suspend_of_nothing(void)
{
    right_one();
    add_code(0x75, 0);
}

/* The row is locked: 28. It does nothing else. */
static void a_locked_row(void)
{
    fresh(0, 0x10);
    add_code(0x06, 0);
    add("\x62\x00\x00\x00\x5A", 5, 1);
    right_one();
}

/* Code 15 protects no block, and bars a chip erase. */
static void a_barred_chip_erase(void)
{
    fresh(0x3C, 0);
    right_one();
    add_code(0x06, 0);
    add_code(0xC7, 0);
}

static void program_before_its_erase(void)
{
    small_steps(2, 4);
    small_steps(0, 2);
    small_steps(4, SMALL_STEPS);
}

static void not_idle_and_another_value(void)
{
    right_one();
    script.input[bytes - 1] = 0x40;
    script.ticks[7] = 1;
}

static void unknown_and_not_idle(void)
{
    add_code(0x5A, 0);
    last_with_a_tick_too_few();
}

static void another_value_and_an_unknown_one(void)
{
    another_value();
    add_code(0x5A, 0);
}

static void lost_by_reset(void)
{
    last_with_a_tick_too_few();
    add_code(0x66, 0);
    add_code(0x99, 0);
}

/* Each breaks the right script, and the verdict is not yes. */
static const struct broken {
    const char *name;
    void (*make)(void);
    uint64_t verdict, where;
} broken[] = {
    {"a sector is not erased", no_erase, YAWLSPAR_AT_ADDRESS, 0x1000},
    {"another sector is erased", erase_of_another_sector, YAWLSPAR_AT_ADDRESS, 0x1000},
    {"a sector too many is erased", an_erase_too_many, YAWLSPAR_AT_ADDRESS, 0x2000},
    {"another value", another_value, YAWLSPAR_AT_ADDRESS, 0x0101},
    {"a byte too few", a_byte_too_few, YAWLSPAR_AT_ADDRESS, 0x0101},
    {"a byte too many", a_byte_too_many, YAWLSPAR_AT_ADDRESS, 0x0102},
    {"a program too few", a_program_too_few, YAWLSPAR_AT_ADDRESS, 0x0100},
    {"over the border of a page", over_the_border, YAWLSPAR_AT_ADDRESS, 0x0000},
    {"more than a page", more_than_a_page, YAWLSPAR_AT_ADDRESS, 0x3000},
    {"no 06h before an erase", no_enable_for_an_erase, YAWLSPAR_AT_STEP, 0},
    {"no 06h before a program", no_enable_for_a_program, YAWLSPAR_AT_STEP, 4},
    {"06h of two bytes", enable_of_two_bytes, YAWLSPAR_AT_STEP, 4},
    {"an erase of five bytes", erase_of_five_bytes, YAWLSPAR_AT_STEP, 1},
    {"a program of no byte", program_of_no_byte, YAWLSPAR_AT_STEP, 9},
    {"an erase with a tick too few", erase_with_a_tick_too_few, YAWLSPAR_AT_STEP, 2},
    {"a program with a tick too few", program_with_a_tick_too_few, YAWLSPAR_AT_STEP, 6},
    {"a tick too few in the last program", last_with_a_tick_too_few, YAWLSPAR_AT_STEP, 8},
    {"a tick too few in the last erase", last_erase_with_a_tick_too_few, YAWLSPAR_AT_STEP, 2},
    {"no ticks at all", no_ticks_at_all, YAWLSPAR_AT_STEP, 2},
    {"a program is suspended at the end", suspended_at_the_end, YAWLSPAR_AT_STEP, 9},
    {"an erase is suspended at the end", erase_suspended_at_the_end, YAWLSPAR_AT_STEP, 5},
    {"a program runs within it", program_within_at_the_end, YAWLSPAR_AT_STEP, 5},
    {"a suspend at the end, of nothing", suspend_of_nothing, YAWLSPAR_AT_STEP, 8},
    {"28 that does nothing else: a locked row", a_locked_row, YAWLSPAR_AT_STEP, 1},
    {"a program before its erase", program_before_its_erase, YAWLSPAR_AT_ADDRESS, 0x1010},
    {"not idle, and differing", not_idle_and_another_value, YAWLSPAR_AT_STEP, 8},
    {"a failing step, and not idle", unknown_and_not_idle, YAWLSPAR_AT_STEP, 0},
    {"a failing step, and differing", another_value_and_an_unknown_one, YAWLSPAR_AT_STEP, 8},
    {"the last program is lost by a reset", lost_by_reset, YAWLSPAR_AT_ADDRESS, 0x0101},
};

static void small_is(const char *name, void (*make)(void), uint64_t expected, bool right)
{
    struct call call;

    name_run(name);
    small_content();
    make();
    check_is(expected);
    call = whole_call(CHECK);
    if (is_right != right)
        fail(&call, "whether the script is a right one", right, is_right);
}

static void each_broken(void)
{
    size_t i;

    for (i = 0; i < COUNT(broken); i++)
        small_is(broken[i].name, broken[i].make, 256 * broken[i].verdict + 65536 * broken[i].where, false);
    if (!on_large()) /* where code 15 protects all blocks */
        small_is("28 that does nothing else: a chip erase", a_barred_chip_erase, at_step(9), false);
}

/* ---- Broken too, and yes all the same ---- */

/* These are not of the right kind, and yet they do no harm: every step answers 0, the part ends idle, and the array is
 * the image. So the right kind is enough for a yes, but not needed. */

static void twice_the_same(void)
{
    right_one();
    small_steps(6, SMALL_STEPS);
}

static void an_overlapping_program(void)
{
    small_steps(0, 7);
    add("\x02\x00\x01\x00\x33\x44\xFF", 7, 3); /* FFh over FFh */
}

static void an_erase_too_many_made_good(void)
{
    uint8_t program[4 + REF_PAGE] = {0x02, 0x00, 0x20, 0x00};
    size_t page;

    an_erase_too_many();
    memset(program + 4, 0x5A, REF_PAGE);
    for (page = 0; page < SECTOR / REF_PAGE; page++) {
        program[2] = (uint8_t)(0x20 + page);
        add_code(0x06, 0);
        add(program, sizeof program, REF_PAGE);
    }
}

static void twice_erased(void)
{
    small_steps(0, 2);
    right_one();
}

static void by_a_program_first(void)
{
    small_steps(4, SMALL_STEPS);
    small_steps(0, 4);
}

static void bits_alone(void)
{
    small_steps(0, 7);
    add("\x02\x00\x01\x00\x3F\xFF", 6, 2);
    add_code(0x06, 0);
    add("\x02\x00\x01\x00\xF3\x44", 6, 2);
}

static void wrapped_round(void)
{
    small_steps(0, 4);
    set_wanted(0x0000, (const uint8_t *)"\x55", 1);
    add_code(0x06, 0);
    add("\x02\x00\x00\xFE\x11\x22\x55", 7, 3);
    small_steps(6, SMALL_STEPS);
}

static void with_status_reads(void)
{
    size_t k;

    for (k = 0; k < SMALL_STEPS; k++) {
        small_step(k);
        add("\x05\x00", 2, 0);
    }
}

static void one_enable_more(void)
{
    right_one();
    add_code(0x06, 0); /* WEL is 1 at the end */
}

static void asleep_at_the_end(void)
{
    right_one();
    add_code(0xB9, 7);
}

static void asleep_with_enable(void)
{
    one_enable_more();
    add_code(0xB9, 0);
}

static void armed_at_the_end(void)
{
    right_one();
    add_code(0x66, 0);
}

static void suspended_and_resumed(void)
{
    small_steps(0, 7);
    add("\x02\x00\x01\x00\x33\x44", 6, 1);
    add_code(0x75, 20);
    add_code(0x7A, 1);
}

static void ticks_with_a_later_step(void)
{
    small_steps(0, 7);
    add("\x02\x00\x01\x00\x33\x44", 6, 0);
    add("\x05\x00", 2, 2);
}

static void rows_and_registers(void)
{
    right_one();
    add_code(0x06, 0);
    add("\x62\x00\x10\x00\x5A", 5, 1);
    add_code(0x06, 0);
    add("\x01\x28", 2, 1); /* all blocks are protected at the end */
    add("\x83\xE0", 2, 0);
}

static void by_a_larger_erase(void)
{
    uint8_t program[4 + REF_PAGE] = {0x02};
    size_t page, i;

    add_code(0x06, 0);
    add("\x52\x00\x12\x34", 4, 128);
    for (page = 0; page < 128; page++) {
        program[2] = (uint8_t)page;
        for (i = 0; i < REF_PAGE; i++)
            program[4 + i] = model.image[page * REF_PAGE + i];
        add_code(0x06, 0);
        add(program, sizeof program, REF_PAGE);
    }
    use(0, 32768);
}

static const struct harmless {
    const char *name;
    void (*make)(void);
} harmless[] = {
    {"a byte is programmed twice with its value", twice_the_same},
    {"a byte is programmed that does not differ", an_overlapping_program},
    {"an erase too many whose bytes are programmed again", an_erase_too_many_made_good},
    {"a sector is erased twice", twice_erased},
    {"a program of another sector before the erase", by_a_program_first},
    {"two values that make the wanted one", bits_alone},
    {"a program that goes on at its page's first byte", wrapped_round},
    {"status reads", with_status_reads},
    {"06h at the end", one_enable_more},
    {"asleep at the end", asleep_at_the_end},
    {"asleep at the end with WEL 1", asleep_with_enable},
    {"armed at the end", armed_at_the_end},
    {"suspended and resumed", suspended_and_resumed},
    {"ticks in a later step", ticks_with_a_later_step},
    {"rows and registers are not judged", rows_and_registers},
    {"a larger erase", by_a_larger_erase},
};

static void each_harmless(void)
{
    size_t i;

    small_is("a right script", right_one, 0, true);
    for (i = 0; i < COUNT(harmless); i += on_large() ? 4 : 1) /* where each compares 32 Mbyte */
        small_is(harmless[i].name, harmless[i].make, 0, false);
}

/* ---- A right script on a part that is not ready for it ---- */

static void begin_with(const void *sent, size_t length, uint32_t ticks)
{
    make_transaction(sent, length);
    make_ticks(ticks);
}

static void not_ready(void)
{
    name_run("a right script, asleep");
    small_content();
    begin_with("\xB9", 1, 0);
    right_one();
    check_is(at_step(0));

    name_run("a right script, protected");
    small_content();
    fresh(0x28, 0); /* code 10 protects all blocks, on each size */
    right_one();
    check_is(at_step(1));

    name_run("a right script, busy");
    small_content();
    begin_with("\x06", 1, 0);
    begin_with("\xD7\x00\x10\x00", 4, 3);
    right_one();
    check_is(at_step(0));

    name_run("a right script, suspended");
    small_content();
    begin_with("\x06", 1, 0);
    begin_with("\x02\x00\x01\x00\x33\x44", 6, 1);
    begin_with("\x75", 1, 0);
    right_one();
    check_is(at_step(0));

    name_run("a right script, erase suspended: 06h is taken, and 20h is not");
    small_content();
    begin_with("\x06", 1, 0);
    begin_with("\x20\x00\x10\x00", 4, 3);
    begin_with("\x75", 1, 0);
    right_one();
    check_is(at_step(1));
}

/* ---- No steps ---- */

static void differing_at(size_t address, size_t other)
{
    uint8_t byte = (uint8_t)~model.array[address];

    set_wanted(address, &byte, 1);
    byte = (uint8_t)(model.array[other] ^ 0x10);
    set_wanted(other, &byte, 1);
    check_is(at_address(address < other ? address : other));
}

/* Each address has a bit that the ones before it have not. */
static void no_script(void)
{
    size_t length = stored_length(), address;

    name_run("no steps");
    fresh(0, 0);
    no_steps();
    check_is(0);
    for (address = 1; address < length; address *= on_large() ? 16 : 2) {
        differing_at(address, length - 1);
        if (!on_large())
            differing_at(length - 1 - address, length - 1);
    }
    differing_at(0, length / 2);
    differing_at(length - 1, length - 1);

    name_run("no steps, busy");
    begin_with("\x06", 1, 0);
    begin_with("\x20\x00\x00\x00", 4, 3);
    use(0, SECTOR);
    want_what_is_there();
    check_is(at_step(0));
    set_wanted(5, (const uint8_t *)"\x5A", 1); /* where the array holds FFh */
    check_is(at_step(0));
}

/* ---- Stops ---- */

/* Steps that are executed, and leave the array as it is. */
static void add_plain_step(size_t k)
{
    switch (k) {
    case 0:
        add_code(0x06, 0);
        break;
    case 1:
        add("\x05\x00", 2, 3);
        break;
    case 2:
        add("\x03\x00\x24\x00\x00\x00", 6, 0);
        break;
    case 3:
        add_code(0x04, 4096);
        break;
    default:
        add("\x9F\x00\x00\x00", 4, 1);
        break;
    }
}

#define PLAIN_STEPS 5u

static const struct stop {
    uint8_t code;
    uint16_t length, ticks;
    bool by_ticks;
} stops[] = {
    {0x05, 0, 0, false},    {0x05, 0, 4097, false}, {0x05, 4097, 0, false},   {0x05, 65535, 4, false},
    {0x05, 2, 4097, true},  {0x05, 2, 65535, true}, {0x05, 4096, 4097, true}, {0x06, 1, 4097, true},
    {0x04, 1, 8192, true},
};

/* The stop is at this place, and an ignored step, or none, at another. On 512 blocks no tick count of 16 bits stops. */
static void stop_at(const struct stop *stop, size_t at, size_t ignored)
{
    size_t k, failing = PLAIN_STEPS + 2;

    fresh(0, 0);
    no_steps();
    for (k = 0; k <= PLAIN_STEPS; k++) {
        if (k == ignored) {
            failing = steps < failing ? steps : failing;
            add_code(0x5A, 1);
        }
        if (k == at) {
            if (!stop->by_ticks || !on_large())
                failing = steps < failing ? steps : failing;
            add_long(stop->code, stop->length, stop->ticks);
        }
        if (k < PLAIN_STEPS)
            add_plain_step(k);
    }
    check_is(failing < steps ? at_step(failing) : 0);
}

static void all_stops(void)
{
    size_t i, at, ignored;

    name_run("stops");
    for (i = 0; i < COUNT(stops); i++)
        for (at = 0; at <= PLAIN_STEPS; at++) {
            if (!on_large() || !stops[i].by_ticks)
                stop_at(&stops[i], at, PLAIN_STEPS + 1);
            for (ignored = 0; ignored <= PLAIN_STEPS; ignored += stored_length() > REF_BLOCK ? 3 : 1)
                stop_at(&stops[i], at, ignored);
        }
    if (on_large()) {
        stop_at(&stops[5], 2, PLAIN_STEPS + 1);
        return;
    }
    name_run("a stop by 6 leaves its transaction");
    small_content();
    right_one();
    script.ticks[7] = 4097;
    check_is(at_step(7));
    use(0x0100, 2);
    begin_with("\x05\x00", 2, 2); /* the two ticks that were left */
    want_what_is_there();
}

/* ---- 20 to 28 ---- */

struct sent {
    uint8_t length, bytes[5];
    uint16_t ticks;
};

/* The last of these steps is the first one that fails. */
static const struct ignored {
    uint64_t number;
    struct sent sent[5];
} ignored[] = {
    {20, {{2, {0x05}, 0}, {1, {0x5A}, 3}}},
    {21, {{1, {0xB9}, 0}, {2, {0x05}, 0}}},
    {22, {{1, {0x06}, 0}, {4, {0x20, 0x00, 0x10}, 3}, {5, {0x03}, 20}}},
    {23, {{1, {0x06}, 0}, {4, {0x20, 0x00, 0x10}, 3}, {1, {0x75}, 0}, {4, {0xD8}, 0}}},
    {24, {{1, {0x04}, 0}, {2, {0x06}, 0}}},
    {25, {{1, {0x66}, 0}, {2, {0x05}, 0}, {1, {0x99}, 0}}},
    {26, {{4, {0x20, 0x00, 0x10}, 16}}},
    {27, {{1, {0x06}, 0}, {4, {0x64, 0x00, 0x01}, 1}}},
    {28, {{1, {0x06}, 0}, {2, {0x01, 0x28}, 1}, {1, {0x06}, 0}, {4, {0x20, 0x00, 0x10}, 16}}},
};

static void each_ignored(void)
{
    size_t i, k, last;

    name_run("20 to 28");
    for (i = 0; i < COUNT(ignored); i++) {
        struct call call;

        small_content();
        for (k = 0; k < 5 && ignored[i].sent[k].length > 0; k++)
            add(ignored[i].sent[k].bytes, ignored[i].sent[k].length, ignored[i].sent[k].ticks);
        last = k - 1;
        right_one();
        add_code(0x5A, 0);
        check_is(at_step(last));
        call = whole_call(CHECK);
        if (model.answers[last] != ignored[i].number)
            fail(&call, "the answer of the failing step", ignored[i].number, model.answers[last]);
    }
}

/* ---- Refusals ---- */

#define ALL_FAULTS (ARRAY | ROWS | LISTS | SUM | OUTPUT | LEVEL | IMAGE)

static struct call spoilt(uint32_t faults, uint32_t which)
{
    struct call call = whole_call(CHECK);

    spoil_call(&call, faults, which);
    return call;
}

/* Every set of faults, and so each alone and all pairs. */
static void each_set_of_faults(uint32_t which)
{
    uint32_t faults;

    for (faults = 0; faults <= ALL_FAULTS; faults++) {
        struct call call = spoilt(faults, which + faults);

        if (faults != 0)
            call_is(&call, refused_with(faults, true));
        call.record = no_record_length(which + faults);
        call_is(&call, refused_with(faults, false));
    }
}

/* A script that would show in all that is lent, on a part that is busy and armed. */
static void refusals(uint32_t times)
{
    static uint8_t erased[SECTOR];
    uint32_t which;

    name_run("refusals in their order");
    small_content();
    begin_with("\x06", 1, 0);
    begin_with("\xD7\x00\x10\x00", 4, 2);
    begin_with("\x66", 1, 1);
    add("\x05\x00", 2, 2);
    add_code(0x66, 1);
    add("\x05\x00\x00", 3, 11);
    for (which = 0; which < times; which++)
        each_set_of_faults(which);
    want_what_is_there();
    memset(erased, 0xFF, SECTOR);
    set_wanted(0x1000, erased, SECTOR);
    check_is(0); /* and with no fault it runs, and the erase ends */
}

/* The same of a script that would stop at its first step: 3 and 6 come after all others. */
static void refusals_before_stops(void)
{
    name_run("refusals before a stop");
    fresh(0, 0);
    no_steps();
    add("", 0, 0);
    add_code(0x06, 1);
    each_set_of_faults(0);
    check_is(at_step(0));
    no_steps();
    add_code(0x06, 65535);
    add_code(0x04, 0);
    each_set_of_faults(1);
    check_is(on_large() ? 0 : at_step(0));
    no_steps();
    each_set_of_faults(2);
    check_is(0);
}

/* The array's length is that of another part, and the image's is that or the part's. */
static void other_sizes(void)
{
    size_t right = stored_length(), i;

    name_run("arrays of other sizes");
    fresh(0, 0);
    no_steps();
    add_code(0x06, 0);
    for (i = 0; i < COUNT(sizes); i++) {
        size_t other = (size_t)sizes[i] * REF_BLOCK;
        struct call call = whole_call(CHECK);

        if (other == right || (other > right && !on_large() && sizes[i] > 16))
            continue;
        call.array = other;
        call_is(&call, 1);
        call.image = other;
        call_is(&call, 1);
        call.array = right;
        call_is(&call, 38);
        call.rows = 0;
        call_is(&call, 38);
    }
    check_is(0);
}

static void levels(void)
{
    static const uint64_t none[] = {2, 255, 256, UINT64_C(1) << 32, (UINT64_C(1) << 32) + 1, UINT64_MAX};
    struct call call;
    size_t i;

    name_run("levels of WP#");
    fresh(0x80, 0); /* SRWD */
    no_steps();
    add_code(0x06, 0);
    add("\x01\x84", 2, 1);
    call = whole_call(CHECK);
    for (i = 0; i < COUNT(none); i++) {
        call.wp_high = none[i];
        call_is(&call, 5);
    }
    call.wp_high = 0;
    call_is(&call, at_step(1));
    call.wp_high = 1;
    call_is(&call, 0);
}

/* ---- Many steps ---- */

/* Failing steps whose numbers need more than 8 and more than 16 bits, and more than 16 bits of steps. */
static void many_steps(void)
{
    static const size_t failing[] = {65537, 65536, 65535, 256, 255};
    size_t i;

    name_run("many steps");
    fresh(0, 0);
    no_steps();
    while (steps < STEPS_ROOM - 1)
        add_code(0x05, 1);
    check_is(0);
    for (i = 0; i < COUNT(failing); i++) {
        if (i % 2 == 0)
            script.input[failing[i]] = 0x5A;
        else
            script.ticks[failing[i]] = 4097;
        check_is(at_step(failing[i]));
    }
    no_steps();
    add_code(0x06, 0);
    add("\x20\x00\x00\x00", 4, 0);
    while (steps < STEPS_ROOM - 1)
        add_code(0x05, 0);
    check_is(at_step(STEPS_ROOM - 1));
}

static void directed_on(uint32_t blocks)
{
    begin("checks", 1, blocks);
    each_harmless();
    each_broken();
    not_ready();
    no_script();
    all_stops();
    each_ignored();
    refusals(blocks == 1 ? 12 : 1);
    refusals_before_stops();
    other_sizes();
    levels();
    if (blocks == 1)
        many_steps();
    end();
}

/* ---- Records whose bytes were changed ---- */

/* A script that runs if the record is sound; and a fault, of which 38, 2, 7 and 4 come before the 5 of a record that is
 * none or not sound, and after the 1 of one whose size is another. */
static void try_record(const uint8_t *record, uint32_t which)
{
    struct call call = whole_call(CHECK);
    uint32_t faults = (which % 2 == 0 ? IMAGE : 1u << which % 5) | (which % 3 == 0 ? OUTPUT : 0);
    uint64_t alone, number, expected;

    memcpy(model.record, record, YAWLSPAR_RECORD_BYTES);
    memcpy(single.record, record, YAWLSPAR_RECORD_BYTES);
    alone = YAWLSPAR_NUMBER(run_check_alone(&call));
    if (alone != 0 && alone != 1 && alone != 5)
        fail(&call, "the number of a check with a changed record", 5, alone);
    memcpy(model.record, record, YAWLSPAR_RECORD_BYTES);
    memcpy(single.record, record, YAWLSPAR_RECORD_BYTES);
    call = spoilt(faults, which);
    number = YAWLSPAR_NUMBER(run_check_alone(&call));
    expected = alone == 1 ? 1 : refused_with(faults, true);
    if ((faults & ARRAY) == 0 && number != expected)
        fail(&call, "the number of a check with a changed record and a fault", expected, number);
}

static void each_byte_changed(void)
{
    uint8_t sound[YAWLSPAR_RECORD_BYTES], changed[YAWLSPAR_RECORD_BYTES];
    uint32_t i, k;

    memcpy(sound, model.record, sizeof sound);
    for (i = 0; i < sizeof sound; i++) {
        const uint8_t values[] = {0x00, 0xFF, (uint8_t)(sound[i] ^ 0x01), (uint8_t)(sound[i] ^ 0x80)};

        memcpy(changed, sound, sizeof changed);
        for (k = 0; k < COUNT(values); k++) {
            changed[i] = values[k];
            try_record(changed, i + k);
        }
    }
    try_record(sound, 0);
}

/* A record of zeros was never powered up: it has no size. */
static void record_of_zeros(void)
{
    uint8_t zeros[YAWLSPAR_RECORD_BYTES] = {0};
    uint32_t faults;

    for (faults = 0; faults <= ALL_FAULTS; faults++) {
        struct call call = spoilt(faults, faults);
        uint64_t result;

        memcpy(model.record, zeros, sizeof zeros);
        memcpy(single.record, zeros, sizeof zeros);
        result = run_check_alone(&call);
        if (result != 1)
            fail(&call, "the result of a check on a record of zeros", 1, result);
    }
}

static void changed_records(void)
{
    begin("changed in erase suspend", 1, 1);
    begin_with("\x06", 1, 0);
    begin_with("\xD7\x00\x30\x00", 4, 9);
    begin_with("\x75", 1, 0);
    add("\x05\x00", 2, 1);
    add_code(0x7A, 7);
    each_byte_changed();

    begin("changed while idle", 1, 1);
    add("\x05\x00", 2, 1);
    add_code(0x06, 2);
    each_byte_changed();
    record_of_zeros();
}

static void by_hand(void)
{
    size_t i;

    for (i = 0; i < COUNT(sizes); i++)
        directed_on(sizes[i]);
    changed_records();
}

/* ---- Right scripts by chance, and wrong ones made of them ---- */

/* A part that is idle, awake and unprotected; all else is drawn. */
static void draw_part(void)
{
    struct call call = fitting(POWER_UP);

    call.maker = any_byte();
    call.type = any_byte();
    call.capacity = any_byte();
    call.device = any_byte();
    call.status = any_byte() & 0xC0;
    if (!on_large() && one_in(2))
        call.status |= 0x3C; /* code 15 */
    call.function = any_byte() & 0xF0;
    if (on_large() && one_in(2))
        call.function |= TBS;
    call.extended = any_byte() & 0xE0;
    make_call(&call);
}

/* What such a part may hold besides: the error bits, the live byte, the bank register, WEL and the armed mark. `turn`
 * says which of the four values the bank register has. */
static void stir(uint32_t turn)
{
    static const uint8_t banks[] = {0x00, 0x81, 0x01, 0x80};
    const uint8_t live[] = {0x83, any_byte()}, bank[] = {one_in(2) ? 0x17 : 0xC5, banks[turn % COUNT(banks)]};

    if (one_in(3)) {
        begin_with("\x06", 1, 0);
        begin_with("\x62\x00\x00\x00\x00", 5, 1); /* a row, which may be locked */
    }
    if (one_in(3))
        begin_with(live, 2, 0);
    if (on_large())
        begin_with(bank, 2, 0);
    if (one_in(2))
        begin_with("\x06", 1, below(3));
    if (one_in(3))
        begin_with("\x66", 1, 0);
}

/* Any address, or one at a border of a page, a sector, a block, a bank or the array. */
static size_t any_place(void)
{
    static const uint32_t units[] = {REF_PAGE, SECTOR, REF_BLOCK, BANK};
    uint32_t length = (uint32_t)stored_length(), unit = units[below(COUNT(units))];

    if (unit >= length || one_in(3))
        return one_in(3) ? length - 1 - below(400) : below(length);
    return (below(length / unit) * unit + length - below(2) * below(300)) % length;
}

static uint8_t drawn_byte(uint32_t kind, uint8_t held)
{
    switch (kind) {
    case 0:
        return 0xFF;
    case 1:
        return 0x00;
    case 2: /* bits are only cleared */
        return held & any_byte();
    case 3: /* and few of them */
        return held & (any_byte() | any_byte() | any_byte());
    case 4: /* few bytes differ */
        return one_in(20) ? any_byte() : held;
    case 5:
        return held | any_byte();
    default:
        return any_byte();
    }
}

/* What the part holds in a place is made anew, and then what it should hold there. */
static void draw_content(size_t at, size_t length)
{
    uint32_t before = below(9), after = below(9);
    size_t i;

    if (length > stored_length() - at)
        length = stored_length() - at;
    use(at, length);
    for (i = at; i < at + length; i++) {
        uint8_t byte = drawn_byte(before, model.array[i]);

        model.array[i] = reference.array[i] = single.array[i] = byte;
        model.image[i] = reference.image[i] = drawn_byte(after, byte);
    }
}

static void draw_contents(void)
{
    uint32_t count = between(1, on_large() ? 5 : 4);

    if (stored_length() == REF_BLOCK && one_in(6)) {
        draw_content(0, REF_BLOCK);
        return;
    }
    for (; count > 0; count--)
        draw_content(any_place(), one_in(4) ? between(1, 2 * SECTOR) : between(1, 700));
}

/* ---- Wrong ones ---- */

static size_t place_of(size_t step)
{
    size_t from = 0, k;

    for (k = 0; k < step; k++)
        from += script.lengths[k];
    return from;
}

static void take_out(size_t step)
{
    size_t from = place_of(step), length = script.lengths[step], i;

    for (i = from; i + length < bytes; i++)
        script.input[i] = script.input[i + length];
    for (i = step; i + 1 < steps; i++) {
        script.lengths[i] = script.lengths[i + 1];
        script.ticks[i] = script.ticks[i + 1];
    }
    bytes -= length;
    steps--;
}

/* Some byte of a step: of its code, its address or its data. */
static void change_byte(size_t step)
{
    script.input[place_of(step) + below(script.lengths[step])] ^= (uint8_t)(1u << below(8));
}

/* The write of a step in twos is its second one. */
static size_t any_write(void)
{
    return below((uint32_t)steps / 2) * 2 + 1;
}

static void add_any_step(void)
{
    static const uint8_t codes[] = {0x05, 0x06, 0x04, 0x75, 0x7A, 0xB9, 0xAB, 0x66, 0x99, 0x5A};

    add_code(pick_byte(codes, COUNT(codes)), below(3));
}

/* 06h has the ticks of the last write, which has none. */
static void move_ticks_at_the_end(void)
{
    uint16_t ticks = script.ticks[steps - 1];

    script.ticks[steps - 1] = script.ticks[steps - 2];
    script.ticks[steps - 2] = ticks;
}

static void spoil_once(void)
{
    size_t at;
    uint8_t byte;

    switch (steps < 2 ? 9 : below(10)) {
    case 0: /* 06h, or what it is for */
        take_out(below((uint32_t)steps));
        break;
    case 1: /* both */
        at = any_write();
        take_out(at);
        take_out(at - 1);
        break;
    case 2:
    case 3:
        change_byte(any_write());
        break;
    case 4:
        script.ticks[any_write()] -= 1;
        break;
    case 5:
        script.ticks[any_write()] = (uint16_t)below(20);
        break;
    case 6:
        script.ticks[below((uint32_t)steps)] = 4097;
        break;
    case 7:
        move_ticks_at_the_end();
        break;
    case 8: /* the image is another */
        at = any_place();
        byte = model.image[at] ^ (uint8_t)(1u << below(8));
        set_wanted(at, &byte, 1);
        break;
    default:
        add_any_step();
        break;
    }
}

/* A write may have become one of a larger unit, or of another bank. On 512 blocks the places of these are not looked
 * at, and such a script is left out. */
static bool is_written_in_sectors(void)
{
    size_t k, from = 0;

    for (k = 0; k < steps; k++) {
        uint8_t code = script.input[from];

        if (code == 0x52 || code == 0xD8 || code == 0x5C || code == 0xDC || code == 0xC7 || code == 0x60 || code == 0x17)
            return false;
        from += script.lengths[k];
    }
    return true;
}

/* A right script on a part that is drawn for it, or one with something wrong. */
static void draw_case(uint32_t turn, bool wrong)
{
    struct call call;

    draw_part();
    stir(turn);
    draw_contents();
    draw_right_script(&part, reference.array, reference.image);
    if (wrong)
        do
            spoil_once();
        while (one_in(4));
    if (on_large() && !is_written_in_sectors())
        no_steps();
    use_what_is_written();
    call = whole_call(CHECK);
    call.wp_high = below(2);
    run_check(&call);
    if (!wrong && !is_right)
        fail(&call, "whether a drawn script is a right one", 1, 0);
    want_what_is_there();
}

static void right_and_wrong(uint64_t seed, uint32_t blocks)
{
    uint32_t turns = blocks == REF_LARGE ? 5 : 14, turn;

    begin_draws(seed);
    begin("right and wrong scripts", seed, blocks);
    for (turn = 0; turn < turns; turn++) {
        draw_case(turn, false);
        draw_case(turn, true);
    }
    end();
}

/* ---- Random scripts ---- */

static void begin_random(void)
{
    begin_sides();
    steps_enough = 1;
}

/* The image is what the script leaves, or that with a byte changed. The script is run once for it. */
static void want_what_is_left(const struct call *call)
{
    struct call run = *call;
    size_t length = stored_length(), at = below((uint32_t)length);

    run.kind = SCRIPT;
    prepare_side(&single, &run);
    call_model(&single, &run);
    memcpy(model.image, single.array, length);
    if (one_in(3))
        model.image[at] ^= 1;
    memcpy(reference.image, model.image, length);
    memcpy(single.record, model.record, YAWLSPAR_RECORD_BYTES);
    memcpy(single.array, model.array, length);
    memcpy(single.rows, model.rows, REF_ROWS);
}

static void run_steps(void)
{
    struct call call = whole_call(CHECK);

    if (steps == 0)
        return;
    call.wp_high = level;
    if (on_large() ? one_in(12) : !one_in(5))
        want_what_is_left(&call);
    run_check(&call);
    no_steps();
    steps_enough = one_in(6) ? between(40, 400) : between(1, 12);
}

static void check_send(bool wp_high, const uint8_t *sent, size_t length)
{
    gather(wp_high, sent, length, run_steps);
    if (one_in(300))
        add_long(0x05, one_in(2) ? 0 : 2, 4097);
}

/* The ticks of the last step, or those of a status read if it has some. */
static void check_wait(uint32_t ticks)
{
    if (fits_step(ticks)) {
        add_ticks(ticks);
        return;
    }
    run_steps();
    make_ticks(ticks);
}

static void check_power_up(const struct call *call)
{
    run_steps();
    make_call(call);
}

/* The steps so far with faults, none of which may be seen. */
static void check_strange(void)
{
    uint32_t faults = 1u << below(7);
    struct call call;

    while (one_in(2))
        faults |= 1u << below(7);
    call = spoilt(faults, below(24));
    if (one_in(4))
        call.record = no_record_length(below(5));
    run_check(&call);
}

static void check_settle(void)
{
    if (steps >= steps_enough || one_in(2))
        run_steps();
}

static const struct takers in_checks = {begin_random, check_power_up, check_send,
                                        check_wait,   check_strange,  check_settle};

static void random_checks(uint64_t seed)
{
    struct call call = fitting(TICK);

    play_traffic(&in_checks, "random checks", seed, seed % 7 == 5 ? 30 : 800); /* 512 blocks by one seed in seven */
    run_steps();
    compare_with_single(&call, same_memory);
}

static void run_seed(uint64_t seed)
{
    static const uint32_t drawn[] = {1, 4, 1, 8, 16, 1, 4, 8, 1, REF_LARGE};

    right_and_wrong(seed, drawn[seed % COUNT(drawn)]);
    if (seed % 3 == 0)
        random_checks(seed / 3);
}

int main(int argc, char **argv)
{
    if (!run_seeds(argc, argv, by_hand, run_seed, LAST_SEED))
        return 2;
    printf("check: %llu checks compared, of %llu steps in all, %llu of them of right scripts, %llu with the verdict yes, "
           "0 differences\n",
           (unsigned long long)checks, (unsigned long long)check_steps, (unsigned long long)rights,
           (unsigned long long)accepted);
    return 0;
}
