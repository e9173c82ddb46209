/*
 * Wear: the three functions of yawlspar.h on it beside the reference model's, and ticks and scripts that are lent wear
 * beside those that are not.
 *
 *   wear               the directed calls, and drawn writes and random calls of the seeds 1 to 40
 *   wear FIRST LAST    drawn writes and random calls of the seeds FIRST to LAST alone
 *
 * Ticks and scripts are made four times, on memory of its own each time: with wear on the side `model`, by the reference
 * on the side `reference`, without wear by yawlspar_tick or yawlspar_script on the side `single`, and with wear in
 * smaller calls on the side `split`: ticks in two parts, and a script by yawlspar_transact and yawlspar_tick_wear one by
 * one. The result, the record's bytes, array, rows, output, each entry of the lists and the wear are then compared, with
 * the guards around them.
 *
 * And this file counts by itself what each call did, by the bytes that were sent, the answers, and how many ticks did
 * work: the history. After each call each count has to be what it was at first and what the history has since, or full.
 * A text is compared with the reference's, and with one that snprintf makes.
 *
 * The program prints one line with the number of calls and of differences. The first difference ends it: it is told
 * before that line, and the exit status is 1. Bad usage is 2.
 */
#include "together.h"

#include "../traffic/draws.h"
#include "drawn.h"
#include "steps.h"

extern int printf(const char *format, ...) __attribute__((format(printf, 1, 2)));
extern int snprintf(char *to, unsigned long most, const char *format, ...) __attribute__((format(printf, 3, 4)));
extern int memcmp(const void *, const void *, unsigned long);
extern void *memcpy(void *, const void *, unsigned long);
extern void *memset(void *, int, unsigned long);

const char *const program_name = "wear";

#define LAST_SEED 40u
#define FULL UINT32_MAX
#define SECTOR_TICKS 16u
#define SECTORS_MOST YAWLSPAR_SECTORS(REF_LARGE)

static const uint32_t sizes[] = {1, 4, 8, 16, REF_LARGE};

static uint32_t sector_count(void)
{
    return (uint32_t)(stored_length() / REF_SECTOR);
}

/* ---- The history: what the calls did, counted from what was sent and what was answered ---- */

struct doing {
    bool any;
    bool erase, program; /* of the array: else it is a row or a register */
    uint32_t sector;     /* the first one that it reaches */
    uint64_t done, all;  /* ticks */
};

static struct doing running, put_aside;
static uint8_t bank; /* the bank address register of a part of 512 blocks */
static struct {
    uint64_t erases, programs;
} since[SECTORS_MOST]; /* the wear was set */
static yawlspar_wear at_first[SECTORS_MOST];

/* A part is powered up. */
static void forget_operations(void)
{
    memset(&running, 0, sizeof running);
    memset(&put_aside, 0, sizeof put_aside);
    bank = 0;
}

/* Begins it at the sector of the unit that holds the sent address. */
static void begin_operation(const uint8_t *sent, bool four, uint32_t unit, uint64_t ticks, bool program)
{
    uint32_t address = (uint32_t)sent[1] << 16 | (uint32_t)sent[2] << 8 | sent[3];

    if (four)
        address = address << 8 | sent[4];
    else if (on_large())
        address += (bank & 1) * BANK;
    address = (uint32_t)(address % stored_length());
    running = (struct doing){true, !program, program, (address - address % unit) / REF_SECTOR, 0, ticks};
}

static uint64_t kept_bytes(size_t sent)
{
    return sent < REF_PAGE ? sent : REF_PAGE;
}

/* A transaction that was executed. */
static void follow_executed(const uint8_t *sent, size_t length)
{
    bool four = (bank & 0x80) != 0; /* the codes with three address bytes have four then */

    switch (sent[0]) {
    case 0x02:
        begin_operation(sent, four, REF_PAGE, kept_bytes(length - (four ? 5 : 4)), true);
        break;
    case 0x12:
        begin_operation(sent, true, REF_PAGE, kept_bytes(length - 5), true);
        break;
    case 0xD7:
    case 0x20:
    case 0x21:
        begin_operation(sent, four || sent[0] == 0x21, REF_SECTOR, 16, false);
        break;
    case 0x52:
    case 0x5C:
        begin_operation(sent, four || sent[0] == 0x5C, 32768, 128, false);
        break;
    case 0xD8:
    case 0xDC:
        begin_operation(sent, four || sent[0] == 0xDC, REF_BLOCK, 256, false);
        break;
    case 0xC7:
    case 0x60:
        running = (struct doing){true, true, false, 0, 0, 16 * (uint64_t)sector_count()};
        break;
    case 0x62:
        running = (struct doing){true, false, false, 0, 0, kept_bytes(length - 4)};
        break;
    case 0x64:
    case 0x01:
    case 0x42:
    case 0x85:
        running = (struct doing){true, false, false, 0, 0, 1};
        break;
    case 0x75:
    case 0xB0:
        put_aside = running;
        running.any = false;
        break;
    case 0x7A:
    case 0x30:
        running = put_aside;
        put_aside.any = false;
        break;
    case 0x99:
        forget_operations();
        break;
    case 0x17:
    case 0xC5:
        bank = sent[1] & 0x81;
        break;
    case 0xB7:
        bank |= 0x80;
        break;
    case 0x29:
        bank &= 0x7F;
        break;
    default:
        break;
    }
}

static void follow_transaction(const uint8_t *sent, size_t length, uint64_t number)
{
    if (number == 0)
        follow_executed(sent, length);
}

static void follow_ticks(const struct call *call, uint64_t asked, uint64_t worked)
{
    uint64_t left = running.any ? running.all - running.done : 0;

    if (worked != (asked < left ? asked : left))
        fail(call, "the ticks that did work, by what runs", asked < left ? asked : left, worked);
    for (; worked > 0; worked--) {
        running.done++;
        if (running.erase && running.done % SECTOR_TICKS == 0)
            since[running.sector + running.done / SECTOR_TICKS - 1].erases++;
        if (running.done == running.all) {
            running.any = false;
            if (running.program)
                since[running.sector].programs++;
        }
    }
}

/* Of a script that stopped at a step that step is followed too: what it was not made of has no answer of 0. */
static void follow_script(const struct call *call, uint64_t got)
{
    size_t count = YAWLSPAR_NUMBER(got) == 0 ? call->lengths : YAWLSPAR_STEP(got) + 1, from = 0, k;

    for (k = 0; k < count; k++) {
        bool stopped = YAWLSPAR_NUMBER(got) != 0 && k + 1 == count;

        follow_transaction(script.input + from, script.lengths[k], model.answers[k]);
        follow_ticks(call, stopped ? 0 : script.ticks[k], model.done[k]);
        from += script.lengths[k];
    }
}

/* 3 and 6 of a script are a stop at a step; all other refusals come before anything is done. */
static void follow(const struct call *call, uint64_t got)
{
    uint64_t number = YAWLSPAR_NUMBER(got);

    if (call->kind == SCRIPT_WEAR && (number == 0 || number == 3 || number == 6))
        follow_script(call, got);
    if (call->kind == TICK_WEAR && number == 0)
        follow_ticks(call, call->ticks, YAWLSPAR_TICKS(got));
}

static uint32_t up_to_full(uint32_t first, uint64_t more)
{
    return more > FULL - first ? FULL : first + (uint32_t)more;
}

static void wear_is_history(const struct call *call)
{
    uint32_t s, erases, programs;

    for (s = 0; s < sector_count(); s++) {
        erases = up_to_full(at_first[s].erases, since[s].erases);
        programs = up_to_full(at_first[s].programs, since[s].programs);
        if (model.wear[s].erases == erases && model.wear[s].programs == programs)
            continue;
        printf("  sector %u:\n", (unsigned)s);
        if (model.wear[s].erases != erases)
            fail(call, "its erases, by the history", erases, model.wear[s].erases);
        fail(call, "its programs, by the history", programs, model.wear[s].programs);
    }
}

/* ---- The wear at first ---- */

enum wear_kind { OF_ZEROS, NEARLY_FULL, ALL_FULL, OF_ANY, MIXED, WEAR_KINDS };

/* Counts of each length, and those about the largest. */
static uint32_t mixed_count(void)
{
    static const uint32_t counts[] = {0,       1,        9,         10,         99,       100,      12345,
                                      9999999, 10000000, 999999999, 1000000000, FULL - 2, FULL - 1, FULL};

    return counts[below(COUNT(counts))];
}

static uint32_t draw_count(enum wear_kind kind)
{
    switch (kind) {
    case OF_ZEROS:
        return 0;
    case NEARLY_FULL:
        return FULL - 1;
    case ALL_FULL:
        return FULL;
    case MIXED:
        return mixed_count();
    default:
        return (uint32_t)any_byte() << 24 | (uint32_t)any_byte() << 16 | (uint32_t)any_byte() << 8 | any_byte();
    }
}

/* What the model's wear is now is what it is at first, on all sides. */
static void wear_begins(void)
{
    size_t length = sizeof *model.wear * sector_count();

    memcpy(reference.wear, model.wear, length);
    memcpy(split.wear, model.wear, length);
    memcpy(at_first, model.wear, length);
    memset(since, 0, sizeof since);
}

static void set_wear(enum wear_kind kind)
{
    uint32_t s;

    for (s = 0; s < sector_count(); s++) {
        model.wear[s].erases = draw_count(kind);
        model.wear[s].programs = draw_count(kind);
    }
    wear_begins();
}

static void any_wear(void)
{
    set_wear(one_in(2) ? OF_ZEROS : (enum wear_kind)below(WEAR_KINDS));
}

/* ---- Calls ---- */

/* The same call with no wear. */
static struct call plain(const struct call *call)
{
    struct call without = *call;

    without.kind = call->kind == TICK_WEAR ? TICK : SCRIPT;
    return without;
}

static void result_has_to_be(const struct call *call, uint64_t expected, uint64_t got)
{
    if (got != expected)
        fail_result(call, expected, got);
}

/* Ticks in two parts, each time at another place. */
static uint64_t tick_in_parts(const struct call *call)
{
    struct call one = *call, other = *call;
    uint64_t result;

    one.ticks = call->ticks * (calls % 6) / 5;
    other.ticks = call->ticks - one.ticks;
    result = call_model(&split, &one);
    return YAWLSPAR_NUMBER(result) != 0 ? result : result + call_model(&split, &other);
}

/* What the call has to answer, by smaller ones. */
static uint64_t make_split(const struct call *call, uint64_t got)
{
    if (call->kind == SCRIPT_WEAR)
        return make_one_by_one(&split, call);
    return YAWLSPAR_NUMBER(got) == 0 ? tick_in_parts(call) : call_model(&split, call);
}

/* Ticks or a script in all four ways. 35 is the only number that the plain call does not give. */
static uint64_t run_worn(const struct call *call)
{
    struct call without = plain(call);
    uint64_t got;

    prepare_side(&single, &without);
    prepare_side(&split, call);
    got = step(call);
    if (YAWLSPAR_NUMBER(got) != YAWLSPAR_BAD_WEAR)
        result_has_to_be(call, call_model(&single, &without), got);
    compare_with_single(call, same_memory_in_part);
    result_has_to_be(call, make_split(call, got), got);
    compare_with(&split, call, same_memory_in_part);
    follow(call, got);
    wear_is_history(call);
    return got;
}

static struct call ticks_call(uint64_t ticks)
{
    struct call call = fitting(TICK_WEAR);

    call.ticks = ticks;
    return call;
}

static void worn_ticks(uint32_t ticks)
{
    struct call call = ticks_call(ticks);

    run_worn(&call);
}

static void worn_is(const struct call *call, uint64_t number, uint64_t above)
{
    result_has_to_be(call, number + 256 * above, run_worn(call));
}

static void ticks_are(uint64_t ticks, uint64_t worked)
{
    struct call call = ticks_call(ticks);

    worn_is(&call, 0, worked);
}

static void script_is(uint64_t number, uint64_t at)
{
    struct call call = whole_call(SCRIPT_WEAR);

    worn_is(&call, number, at);
}

/* A call that counts nothing, on all sides. */
static uint64_t make_on_all(const struct call *call)
{
    uint64_t got;

    prepare_side(&split, call);
    got = make_call(call);
    result_has_to_be(call, got, call_model(&split, call));
    return got;
}

static void send_worn(const void *sent, size_t length)
{
    struct call call = fitting(TRANSACT);

    memcpy(message, sent, length);
    call.input = call.output = length;
    follow_transaction(message, length, YAWLSPAR_NUMBER(make_on_all(&call)));
}

/* Ticks that are lent no wear: they pass, and the history does not have them. */
static void plain_ticks_are(uint64_t ticks, uint64_t worked)
{
    struct call call = fitting(TICK);
    struct doing before = running;

    call.ticks = ticks;
    result_has_to_be(&call, 256 * worked, make_on_all(&call));
    running.done = before.done + worked;
    running.any = before.any && running.done < running.all;
    wear_is_history(&call);
}

static void enabled(const void *sent, size_t length)
{
    send_worn("\x06", 1);
    send_worn(sent, length);
}

static void reset_worn(void)
{
    send_worn("\x66", 1);
    send_worn("\x99", 1);
}

/* A fresh part on all four sides; array, rows and wear are as they were. */
static void fresh_worn(void)
{
    fresh(0, 0);
    memcpy(split.record, model.record, YAWLSPAR_RECORD_BYTES);
    forget_operations();
}

static void begin_sides(void)
{
    begin_single();
    begin_split();
    begin_wear();
    set_wear(OF_ZEROS);
    forget_operations();
    no_steps();
}

static void begin(const char *name, uint64_t seed, uint32_t blocks)
{
    begin_draws(seed);
    begin_run(name, seed, blocks);
    powered(blocks);
    begin_sides();
}

static void whole_is_same(void)
{
    struct call call = fitting(TICK);

    compare_with_single(&call, same_memory);
    compare_with(&split, &call, same_memory);
}

static void end(void)
{
    end_run();
    whole_is_same();
}

static void begin_fresh(const char *name, enum wear_kind kind)
{
    name_run(name);
    fresh_worn();
    set_wear(kind);
}

/* ---- What the wear has to be, worked out by hand ---- */

static yawlspar_wear wanted[SECTORS_MOST];

static void want_zeros(void)
{
    memset(wanted, 0, sizeof wanted);
}

/* These sectors have one erase more each. */
static void want_erases(uint32_t first, uint32_t count)
{
    for (; count > 0; count--)
        wanted[first++].erases++;
}

static void wear_is_wanted(void)
{
    struct call call = fitting(TICK_WEAR);
    uint32_t s;

    for (s = 0; s < sector_count(); s++)
        if (model.wear[s].erases != wanted[s].erases || model.wear[s].programs != wanted[s].programs)
            fail(&call, "the first sector whose wear is not as worked out", sector_count(), s);
}

static void begin_zeros(const char *name)
{
    begin_fresh(name, OF_ZEROS);
    want_zeros();
}

/* ---- Programs ---- */

static size_t put_address(uint8_t *sent, uint8_t code, uint32_t address)
{
    sent[0] = code;
    sent[1] = (uint8_t)(address >> 16);
    sent[2] = (uint8_t)(address >> 8);
    sent[3] = (uint8_t)address;
    return 4;
}

static void select_bank(uint32_t address)
{
    if (on_large())
        send_worn(address < BANK ? "\x17\x00" : "\x17\x01", 2);
}

static void start_program(uint32_t address, size_t count, uint8_t byte)
{
    static uint8_t sent[4 + 1000];

    memset(sent, byte, sizeof sent);
    select_bank(address);
    enabled(sent, put_address(sent, 0x02, address) + count);
}

/* It counts at its last tick, whatever it programs, and once. */
static void programs_by_hand(void)
{
    static const size_t counts[] = {1, 2, 3, 255, 256, 257, 300, 1000};
    size_t i;

    for (i = 0; i < COUNT(counts); i++) {
        uint32_t kept = counts[i] < REF_PAGE ? (uint32_t)counts[i] : REF_PAGE;

        begin_zeros("a program");
        start_program(0x003FF0, counts[i], i % 2 == 0 ? 0xFF : 0x5A);
        wear_is_wanted();
        ticks_are(kept - 1, kept - 1);
        wear_is_wanted();
        ticks_are(0, 0);
        wear_is_wanted();
        ticks_are(7, 1);
        wanted[3].programs++;
        wear_is_wanted();
        ticks_are(7, 0);
        wear_is_wanted();
    }
}

/* A cut program counts nothing; one that is resumed counts at its end, and once. */
static void programs_that_are_cut(void)
{
    uint32_t cut;

    for (cut = 0; cut < 5; cut++) {
        begin_zeros("a program that is reset");
        start_program(0x001200, 5, 0x00);
        ticks_are(cut, cut);
        reset_worn();
        ticks_are(300, 0);
        wear_is_wanted();
        start_program(0x001200, 5, 0x00);
        ticks_are(cut, cut);
        send_worn("\x75", 1);
        ticks_are(300, 0);
        wear_is_wanted();
        send_worn("\x7A", 1);
        ticks_are(300, 5 - cut);
        wanted[1].programs++;
        wear_is_wanted();
        start_program(0x001200, 5, 0x00);
        ticks_are(cut, cut);
        send_worn("\x75", 1);
        reset_worn();
        ticks_are(300, 0);
        wear_is_wanted();
    }
}

/* The first and the last page of sectors, blocks and banks. */
static void programs_everywhere(void)
{
    uint32_t by = sector_count() > 256 ? 251 : sector_count() > 16 ? 7 : 1, s;

    begin_zeros("programs everywhere");
    for (s = 0; s < sector_count(); s += by) {
        start_program(s * REF_SECTOR, 1, 0x0F);
        ticks_are(1, 1);
        start_program(s * REF_SECTOR + REF_SECTOR - 1, 2, 0xF0);
        ticks_are(2, 2);
        wanted[s].programs += 2;
    }
    start_program((uint32_t)stored_length() - 1, 1, 0x00);
    ticks_are(1, 1);
    wanted[sector_count() - 1].programs++;
    wear_is_wanted();
}

/* ---- Erases ---- */

struct unit {
    uint8_t code;
    uint32_t sectors; /* 0 for all of the part */
};

static const struct unit units[] = {{0x20, 1}, {0xD7, 1}, {0x52, 8}, {0xD8, 16}, {0xC7, 0}, {0x60, 0}};

static uint32_t sectors_in(const struct unit *unit)
{
    return unit->sectors == 0 ? sector_count() : unit->sectors;
}

/* Its address is any one in the unit. Gives the unit's first sector. */
static uint32_t start_erase(const struct unit *unit, uint32_t address)
{
    uint8_t sent[4];
    size_t length = put_address(sent, unit->code, address);

    if (unit->sectors == 0) {
        enabled(sent, 1);
        return 0;
    }
    select_bank(address);
    enabled(sent, length);
    return address / REF_SECTOR - address / REF_SECTOR % unit->sectors;
}

static uint32_t last_address(void)
{
    return (uint32_t)stored_length() - 1;
}

/* Tick by tick, as far as there are not too many. */
static void erases_tick_by_tick(void)
{
    uint32_t i, done, first, by;

    for (i = 0; i < COUNT(units); i++) {
        uint32_t all = sectors_in(&units[i]) * SECTOR_TICKS;

        begin_zeros("an erase, tick by tick");
        first = start_erase(&units[i], units[i].code == 0x52 ? last_address() : 0x00A123);
        for (done = 0; done < all; done += by) {
            by = all <= 256 || done < 40 ? 1 : done < 400 ? 13 : 16 * 61 + 1;
            by = by > all - done ? all - done : by;
            ticks_are(by, by);
            want_erases(first + done / SECTOR_TICKS, (done + by) / SECTOR_TICKS - done / SECTOR_TICKS);
            wear_is_wanted();
        }
        ticks_are(20, 0);
        wear_is_wanted();
    }
}

/* All in one call, and more ticks than there are. */
static void erases_at_once(void)
{
    uint32_t i, first;

    for (i = 0; i < COUNT(units); i++) {
        uint32_t all = sectors_in(&units[i]) * SECTOR_TICKS;

        begin_zeros("an erase at once");
        first = start_erase(&units[i], last_address());
        ticks_are(ref_ticks_most(part.size), all);
        want_erases(first, sectors_in(&units[i]));
        wear_is_wanted();
        start_erase(&units[i], last_address());
        ticks_are(all, all);
        want_erases(first, sectors_in(&units[i]));
        wear_is_wanted();
    }
}

enum cut { BY_RESET, BY_SUSPEND, BY_SUSPEND_AND_RESET, BY_POWER, CUTS };

static void cut_by(enum cut cut)
{
    if (cut == BY_SUSPEND || cut == BY_SUSPEND_AND_RESET)
        send_worn("\x75", 1);
    if (cut == BY_RESET || cut == BY_SUSPEND_AND_RESET)
        reset_worn();
    if (cut == BY_POWER)
        fresh_worn();
}

/* After so many ticks its finished sectors are counted, and no more is, whatever comes. */
static void erase_cut_after(const struct unit *unit, uint32_t done, enum cut cut)
{
    uint32_t first;

    begin_zeros("an erase that is cut");
    first = start_erase(unit, unit->code == 0x52 ? 0x008000 : 0x000000);
    ticks_are(done, done);
    cut_by(cut);
    ticks_are(100, 0);
    want_erases(first, done / SECTOR_TICKS);
    wear_is_wanted();
}

/* A chip erase cannot be suspended. */
static void erases_cut(void)
{
    uint32_t i, done, cut, by;

    for (i = 0; i < COUNT(units); i++) {
        uint32_t all = sectors_in(&units[i]) * SECTOR_TICKS;

        for (cut = 0; cut < CUTS; cut++) {
            if (units[i].sectors == 0 && (cut == BY_SUSPEND || cut == BY_SUSPEND_AND_RESET))
                continue;
            by = sector_count() == 16 || all <= 16 ? 1 : all <= 256 ? 11 + cut : all / 9 + 1;
            for (done = 0; done < all; done += on_large() && all > 16 ? by * 3 : by)
                erase_cut_after(&units[i], done, (enum cut)cut);
        }
    }
}

/* Suspended at each tick, and resumed: it goes on counting where it was. Twice in a row, too. */
static void erases_resumed(void)
{
    uint32_t i, done, by, first;

    for (i = 0; i < 4; i++) {
        uint32_t all = sectors_in(&units[i]) * SECTOR_TICKS;

        by = sector_count() == 16 || all <= 16 ? 1 : on_large() ? 37 : 7;
        for (done = 0; done < all; done += by) {
            begin_zeros("an erase that is resumed");
            first = start_erase(&units[i], 0x00F000);
            ticks_are(done, done);
            send_worn("\x75", 1);
            ticks_are(20, 0);
            send_worn("\x7A", 1);
            ticks_are(1, 1);
            if (done + 1 < all) {
                send_worn("\xB0", 1);
                send_worn("\x30", 1);
                ticks_are(all, all - done - 1);
            }
            want_erases(first, sectors_in(&units[i]));
            wear_is_wanted();
        }
    }
}

/* A program at each tick of a suspended erase counts when it is done; the erase goes on counting then. One that a reset
 * drops counts nothing, and the erase has its finished sectors alone. */
static void programs_within(void)
{
    static const uint8_t program[] = {0x02, 0x00, 0x8F, 0xFE, 0xFF, 0x5A, 0xFF};
    uint32_t done, by = sector_count() == 16 ? 1 : on_large() ? 29 : 5;

    for (done = 0; done < 128; done += by) {
        begin_zeros("a program within a suspended erase");
        start_erase(&units[2], 0x000000);
        ticks_are(done, done);
        want_erases(0, done / SECTOR_TICKS);
        send_worn("\x75", 1);
        enabled(program, sizeof program);
        ticks_are(2, 2);
        wear_is_wanted();
        ticks_are(50, 1);
        wanted[8].programs++;
        wear_is_wanted();
        enabled(program, 5); /* one byte, and one more in the same suspend */
        ticks_are(1, 1);
        wanted[8].programs++;
        wear_is_wanted();
        enabled(program, sizeof program);
        ticks_are(2, 2);
        if (done % 2 == 0) {
            reset_worn();
            ticks_are(200, 0);
        } else {
            ticks_are(200, 1);
            wanted[8].programs++;
            send_worn("\x7A", 1);
            ticks_are(200, 128 - done);
            want_erases(done / SECTOR_TICKS, 8 - done / SECTOR_TICKS);
        }
        wear_is_wanted();
    }
}

/* A sector erase that nothing else reaches, a row's erase and program, each register, and what is ignored. */
static void what_does_not_count(void)
{
    static const struct {
        uint8_t length, bytes[6];
        uint64_t ticks;
    } each[] = {{4, {0x64, 0x00, 0x00, 0x00}, 1}, {4, {0x64, 0x00, 0x30, 0xFF}, 1},
                {6, {0x62, 0x00, 0x10, 0x00, 0xFF, 0x00}, 2}, {5, {0x62, 0x00, 0x00, 0x07, 0x00}, 1},
                {2, {0x01, 0x40}, 1}, {2, {0x42, 0x80}, 1}, {2, {0x85, 0xE0}, 1},
                {2, {0x83, 0xE0}, 0}, {4, {0x02, 0x00, 0x00, 0x00}, 0}, {5, {0x20, 0x00, 0x00, 0x00, 0x00}, 0},
                {2, {0xC7, 0x00}, 0}, {1, {0xB9}, 0}};
    size_t i, kind;

    for (i = 0; i < COUNT(each); i++)
        for (kind = 0; kind < WEAR_KINDS; kind++) {
            begin_fresh("what does not count", (enum wear_kind)kind);
            memcpy(wanted, model.wear, sizeof *wanted * sector_count());
            enabled(each[i].bytes, each[i].length);
            ticks_are(9, each[i].ticks);
            wear_is_wanted();
        }
    begin_zeros("writes that are barred");
    enabled("\x01\x1C", 2);
    ticks_are(1, 1);
    start_program(last_address(), 3, 0x00);
    enabled("\xC7", 1);
    ticks_are(9, 0);
    wear_is_wanted();
}

/* What plain calls do is left out: a tick counts where it is lent wear, whatever ran the ticks before it. */
static void mixed_calls(void)
{
    begin_zeros("calls with wear and without");
    start_erase(&units[0], 0x002000);
    plain_ticks_are(15, 15);
    ticks_are(1, 1);
    want_erases(2, 1);
    wear_is_wanted();
    start_erase(&units[0], 0x003000);
    ticks_are(15, 15);
    plain_ticks_are(9, 1);
    ticks_are(9, 0);
    wear_is_wanted();
    start_erase(&units[2], 0x000000);
    ticks_are(20, 20);
    plain_ticks_are(20, 20); /* the 32nd among them */
    ticks_are(200, 88);
    want_erases(0, 1);
    want_erases(2, 6);
    wear_is_wanted();
    start_program(0x004000, 3, 0x00);
    ticks_are(2, 2);
    plain_ticks_are(2, 1);
    wear_is_wanted();
    start_program(0x004000, 3, 0x00);
    plain_ticks_are(2, 2);
    ticks_are(2, 1);
    wanted[4].programs++;
    wear_is_wanted();
}

/* ---- Counts about the largest ---- */

static void set_one(uint32_t s, uint32_t erases, uint32_t programs)
{
    model.wear[s].erases = wanted[s].erases = erases;
    model.wear[s].programs = wanted[s].programs = programs;
}

/* One more makes 4,294,967,295 of 4,294,967,294, which then stays; the other count, and the sectors beside, stay too. */
static void full_counts(void)
{
    uint32_t time;

    begin_zeros("counts that become full");
    set_one(4, FULL - 1, FULL - 2);
    set_one(5, FULL, FULL - 1);
    set_one(6, FULL - 2, FULL);
    set_one(7, FULL, FULL);
    set_one(8, 7, FULL);
    wear_begins();
    for (time = 0; time < 3; time++) {
        for (uint32_t s = 4; s < 9; s++) {
            start_erase(&units[0], s * REF_SECTOR);
            ticks_are(16, 16);
            wanted[s].erases = up_to_full(wanted[s].erases, 1);
            wear_is_wanted();
            start_program(s * REF_SECTOR, 2, 0xFF);
            ticks_are(2, 2);
            wanted[s].programs = up_to_full(wanted[s].programs, 1);
            wear_is_wanted();
        }
    }
    set_wear(NEARLY_FULL);
    name_run("a chip erase of counts that become full");
    for (time = 0; time < 2; time++) {
        start_erase(&units[4], 0);
        ticks_are(ref_ticks_most(part.size), 16 * (uint64_t)sector_count());
    }
    set_wear(ALL_FULL);
    start_erase(&units[3], 0);
    ticks_are(256, 256);
    start_program(0, 1, 0x00);
    ticks_are(1, 1);
}

/* ---- Scripts, worked out by hand ---- */

/* Erases sector 1, programs it twice, begins an erase of sectors 0 to 7 and has 21 ticks of it, and within it a program. */
static void add_update(void)
{
    add_code(0x06, 0);
    add("\x20\x00\x10\x00", 4, 16);
    add_code(0x06, 0);
    add("\x02\x00\x11\x00\xFF\xA5", 6, 2);
    add_code(0x06, 0);
    add("\x02\x00\x1F\x00\xFF\xA5", 6, 20);
    add_code(0x06, 0);
    add("\x52\x00\x20\x00", 4, 21);
    add_code(0x75, 3);
    add_code(0x06, 0);
    add("\x02\x00\xA0\x00\x00", 5, 2);
    add_code(0x06, 0);
    add("\x02\x00\xB0\x00\x00\x00", 6, 1);
}

static void want_update(void)
{
    want_erases(1, 1);
    want_erases(0, 1);
    wanted[1].programs += 2;
    wanted[10].programs++;
}

static void scripts_by_hand(void)
{
    begin_zeros("a script");
    no_steps();
    add_update();
    script_is(0, 13);
    want_update();
    wear_is_wanted();
    no_steps();
    add_code(0x05, 1); /* the second program within ends */
    add_code(0x7A, 200);
    script_is(0, 2);
    wanted[11].programs++;
    want_erases(1, 7);
    wear_is_wanted();
    no_steps();
    script_is(0, 0);
    wear_is_wanted();
}

/* What was done before a stop stays counted. */
static void stopped_scripts(void)
{
    begin_zeros("a script that stops by its length");
    no_steps();
    add_update();
    add("", 0, 7);
    add("\x05\x00", 2, 13);
    script_is(3, 13);
    want_update();
    wear_is_wanted();

    begin_zeros("a script that stops by its ticks");
    no_steps();
    add_update();
    add("\x05\x00", 2, 4097);
    add("\x05\x00", 2, 1);
    want_update();
    if (on_large()) { /* where they are not too many: the program within ends */
        script_is(0, 15);
        wanted[11].programs++;
    } else {
        script_is(6, 13);
    }
    wear_is_wanted();
}

/* A script of 16 erases and 256 programs. */
static void long_script(void)
{
    uint8_t sent[4 + 3] = {0};
    uint32_t i;

    begin_zeros("a long script");
    no_steps();
    for (i = 0; i < 16; i++) {
        add_code(0x06, 0);
        add(sent, put_address(sent, 0xD7, i * REF_SECTOR + i), 16 + i);
        wanted[i].erases++;
    }
    for (i = 0; i < 256; i++) {
        add_code(0x06, 0);
        add(sent, put_address(sent, 0x02, i * REF_PAGE) + 3, 3);
        wanted[i / 16].programs++;
    }
    script_is(0, steps);
    wear_is_wanted();
}

/* ---- Refusals ---- */

#define TICK_FAULTS (ARRAY | ROWS | WEAR)
#define SCRIPT_FAULTS (ARRAY | ROWS | LISTS | SUM | OUTPUT | LEVEL | WEAR)

/* 1, 35, 2, 5, 6 in this order. */
static void ticks_refused(uint32_t faults, uint32_t which, bool too_many, bool record)
{
    struct call call = ticks_call(too_many ? ref_ticks_most(part.size) + 1 + which : 20);
    uint64_t number = refused_with(faults, record);

    spoil_call(&call, faults, which);
    if (!record)
        call.record = no_record_length(which);
    worn_is(&call, number == 0 && too_many ? 6 : number, 0);
}

/* 1, 35, 2, 7, 4, 5 in this order. */
static void script_refused(uint32_t faults, uint32_t which, bool record)
{
    struct call call = whole_call(SCRIPT_WEAR);

    spoil_call(&call, faults, which);
    if (!record)
        call.record = no_record_length(which);
    worn_is(&call, refused_with(faults, record), 0);
}

static void each_set_of_faults(uint32_t which)
{
    uint32_t faults;

    for (faults = 0; faults <= SCRIPT_FAULTS; faults++) {
        if ((faults & ~(uint32_t)SCRIPT_FAULTS) != 0)
            continue;
        if (faults != 0)
            script_refused(faults, which + faults, true);
        script_refused(faults, which + faults, false);
        if ((faults & ~(uint32_t)TICK_FAULTS) != 0)
            continue;
        if (faults != 0)
            ticks_refused(faults, which + faults, false, true);
        ticks_refused(faults, which + faults, true, true);
        ticks_refused(faults, which + faults, false, false);
        ticks_refused(faults, which + faults, true, false);
    }
}

/* On a part that is busy, before a tick that counts: ticks that pass where they should not show, in the wear too. */
static void refusals(uint32_t times)
{
    uint32_t which;

    begin_fresh("refusals in their order", OF_ANY);
    enabled("\x20\x00\x10\x00", 4);
    ticks_are(15, 15);
    no_steps();
    add("\x05\x00", 2, 1);
    add_code(0x66, 1);
    for (which = 0; which < times; which++)
        each_set_of_faults(which);
    set_wear(OF_ZEROS);
    want_zeros();
    script_is(0, 2); /* and with no fault it runs */
    want_erases(1, 1);
    wear_is_wanted();
}

/* 3 and 6 of a step come after all others. */
static void refusals_before_stops(void)
{
    begin_fresh("refusals before a stop", OF_ANY);
    no_steps();
    add("", 0, 0);
    each_set_of_faults(1);
    script_is(3, 0);
    no_steps();
    each_set_of_faults(2);
    script_is(0, 0);
}

/* Bytes that hold no record: there is no size to judge the wear by. */
static void no_record(uint32_t blocks)
{
    uint32_t faults;

    begin_draws(blocks);
    begin_run("no record", blocks, blocks);
    begin_sides();
    set_wear(OF_ANY);
    add("\x05\x00", 2, 2);
    for (faults = 0; faults <= SCRIPT_FAULTS; faults++) {
        struct call ticks = ticks_call(faults % 2 == 0 ? 2 : 200000), whole = whole_call(SCRIPT_WEAR);

        if ((faults & ~(uint32_t)SCRIPT_FAULTS) != 0)
            continue;
        spoil_call(&ticks, faults, faults);
        worn_is(&ticks, (faults & ROWS) != 0 ? 2 : 5, 0);
        spoil_call(&whole, faults, faults);
        worn_is(&whole, refused_with(faults, false), 0);
    }
}

/* ---- Records whose bytes were changed ---- */

static void set_record(const uint8_t *record)
{
    memcpy(model.record, record, YAWLSPAR_RECORD_BYTES);
    memcpy(single.record, record, YAWLSPAR_RECORD_BYTES);
}

/* The same call with wear and with none, where the reference does not know the record. */
static uint64_t run_alone(const struct call *call)
{
    struct call without = plain(call);
    uint64_t got;

    prepare_side(&model, call);
    prepare_side(&single, &without);
    got = call_model(&model, call);
    result_has_to_be(call, call_model(&single, &without), got);
    if (is_refusal(got))
        compare_with_single(call, same_memory_in_part); /* and the wear is as it was */
    memcpy(single.wear, model.wear, sizeof *model.wear * sector_count());
    compare_with_single(call, same_memory_in_part);
    return got;
}

/* 35 if the bytes hold a record of this size, and else what the call without wear says. With an array that is too long a
 * record of any size is a 1. */
static void wrong_wear_alone(const struct call *call, uint64_t number)
{
    struct call longer = plain(call), spoilt = *call;
    uint64_t expected = number;

    longer.array++;
    if (number != 1 && YAWLSPAR_NUMBER(call_model(&single, &longer)) == 1)
        expected = 35;
    spoil_call(&spoilt, WEAR, (uint32_t)calls);
    prepare_side(&model, &spoilt);
    prepare_side(&single, &longer);
    result_has_to_be(&spoilt, expected, call_model(&model, &spoilt));
    compare_with_single(call, same_memory_in_part);
}

static void try_record(const uint8_t *record, const struct call *call)
{
    uint64_t number;

    set_record(record);
    number = YAWLSPAR_NUMBER(run_alone(call));
    if (number != 0 && number != 1 && number != 5)
        fail(call, "the number of a call with a changed record", 5, number);
    set_record(record);
    wrong_wear_alone(call, number);
}

static void each_byte_changed(void)
{
    uint8_t sound[YAWLSPAR_RECORD_BYTES], changed[YAWLSPAR_RECORD_BYTES];
    struct call ticks = ticks_call(3), whole = whole_call(SCRIPT_WEAR);
    uint32_t i, k;

    memcpy(sound, model.record, sizeof sound);
    for (i = 0; i < sizeof sound; i++) {
        const uint8_t values[] = {0x00, 0xFF, (uint8_t)(sound[i] ^ 0x01), (uint8_t)(sound[i] ^ 0x10)};

        memcpy(changed, sound, sizeof changed);
        for (k = 0; k < COUNT(values); k++) {
            changed[i] = values[k];
            try_record(changed, &ticks);
            try_record(changed, &whole);
        }
    }
    memset(changed, 0, sizeof changed);
    try_record(changed, &ticks);
    try_record(changed, &whole);
}

static void changed_in(const char *name, const void *sent, size_t length, uint64_t ticks)
{
    begin(name, 1, 1);
    enabled(sent, length);
    ticks_are(ticks, ticks);
    no_steps();
    add("\x05\x00", 2, 1);
    add_code(0x06, 2);
    each_byte_changed();
}

static void changed_records(void)
{
    changed_in("changed in a program", "\x02\x00\x12\xFE\x01\x02\x03\x04\x05\x06", 10, 4);
    changed_in("changed in an erase", "\xD8\x00\x00\x00", 4, 14);
    changed_in("changed in a chip erase", "\xC7", 1, 255);
}

/* ---- The text ---- */

static struct call text_call(void)
{
    return fitting(WEAR_TEXT);
}

/* The text, once more: by snprintf. */
static size_t text_by_printf(char *to, size_t most)
{
    uint64_t erases = 0, programs = 0;
    uint32_t largest_erases = 0, largest_programs = 0, s;
    size_t length = 0;

    for (s = 0; s < sector_count(); s++) {
        const yawlspar_wear *one = &at_first[s];
        bool full = one->erases == FULL || one->programs == FULL;

        length += (size_t)snprintf(to + length, most - length, "%u %u %u%s\n", (unsigned)s, (unsigned)one->erases,
                                   (unsigned)one->programs, full ? " full" : "");
        erases += one->erases;
        programs += one->programs;
        largest_erases = one->erases > largest_erases ? one->erases : largest_erases;
        largest_programs = one->programs > largest_programs ? one->programs : largest_programs;
    }
    return length + (size_t)snprintf(to + length, most - length, "largest %u %u\ntotal %llu %llu\n",
                                     (unsigned)largest_erases, (unsigned)largest_programs, (unsigned long long)erases,
                                     (unsigned long long)programs);
}

/* Of the wear as it was set: the counts of the ticks since are none. */
static void text_is_right(void)
{
    static char expected[TEXT_ROOM + 1];
    struct call call = text_call();
    size_t length = text_by_printf(expected, sizeof expected);
    uint64_t got = step(&call); /* with the reference's, and with each byte behind it */

    result_has_to_be(&call, 256 * (uint64_t)length, got);
    if (YAWLSPAR_LENGTH(got) > call.text)
        fail(&call, "the bytes of a text", call.text, YAWLSPAR_LENGTH(got));
    if (memcmp(model.text, expected, length) != 0)
        fail(&call, "whether the text is what snprintf makes", 1, 0);
}

static void texts_of_each_kind(void)
{
    uint32_t kind, time;

    name_run("texts");
    for (kind = 0; kind < WEAR_KINDS; kind++)
        for (time = 0; time < (kind < OF_ANY ? 1 : on_large() ? 6 : 40); time++) {
            set_wear((enum wear_kind)kind);
            text_is_right();
        }
}

/* One sector differs from the others: each one of a small part, and some of a large one. */
static void texts_with_one_sector(void)
{
    static const yawlspar_wear each[] = {{1, 0},    {0, 1},    {FULL, 0}, {0, FULL},        {FULL - 1, 5},
                                         {5, FULL}, {FULL, 5}, {10, 9},   {FULL, FULL - 1}, {FULL - 1, FULL}};
    uint32_t by = sector_count() > 256 ? 1021 : sector_count() > 16 ? 17 : 1, s, k;

    name_run("texts with one sector that differs");
    for (s = 0; s < sector_count(); s += by)
        for (k = 0; k < COUNT(each); k++) {
            set_wear(OF_ZEROS);
            model.wear[s] = each[k];
            wear_begins();
            text_is_right();
        }
    set_wear(ALL_FULL); /* the longest text, but for one line */
    model.wear[sector_count() - 1] = (yawlspar_wear){0, 0};
    wear_begins();
    text_is_right();
}

static void text_by_hand(void)
{
    static const char expected[] = "0 1 2\n1 0 0\n2 4294967295 7 full\n3 7 4294967295 full\n4 4294967294 10\n5 0 0\n6 0 0\n"
                                   "7 0 0\n8 0 0\n9 0 0\n10 0 0\n11 0 0\n12 0 0\n13 0 0\n14 4294967295 4294967295 full\n"
                                   "15 100 99\nlargest 4294967295 4294967295\ntotal 12884901992 8589934708\n";
    struct call call = text_call();
    uint64_t got;

    name_run("a text worked out by hand");
    want_zeros();
    set_wear(OF_ZEROS);
    set_one(0, 1, 2);
    set_one(2, FULL, 7);
    set_one(3, 7, FULL);
    set_one(4, FULL - 1, 10);
    set_one(14, FULL, FULL);
    set_one(15, 100, 99);
    wear_begins();
    got = step(&call);
    result_has_to_be(&call, 256 * (sizeof expected - 1), got);
    if (memcmp(model.text, expected, sizeof expected - 1) != 0)
        fail(&call, "whether the text is the one worked out by hand", 1, 0);
}

/* Sizes that are none. Some are one modulo 2^8, 2^16 or 2^32, and some have its wear or its text modulo 2^64. */
static void texts_of_wrong_sizes(void)
{
    const uint64_t blocks = text_call().blocks;
    const uint64_t wrong[] = {0, 2, 3, 5, 15, 17, 32, 256, 511, 513, blocks + 256, blocks + 65536,
                              blocks + (UINT64_C(1) << 32), blocks + (UINT64_C(1) << 55), blocks + (UINT64_C(1) << 60),
                              blocks + (UINT64_C(1) << 61), blocks + (UINT64_C(1) << 63), UINT64_MAX};
    size_t i;

    for (i = 0; i < COUNT(wrong); i++) {
        struct call call = text_call();

        if (ref_size_ok(wrong[i]))
            continue;
        call.blocks = wrong[i];
        number_is(&call, 1);
        call.text++; /* 1 comes before 4 */
        number_is(&call, 1);
        call.wear++; /* and before 35 */
        number_is(&call, 1);
        call.text--;
        number_is(&call, 1);
    }
    for (i = 0; i < COUNT(sizes); i++) {
        struct call call = text_call();

        call.blocks = sizes[i];
        if (sizes[i] != blocks)
            number_is(&call, 35);
        call.wear = YAWLSPAR_SECTORS((size_t)sizes[i]);
        if (sizes[i] != blocks)
            number_is(&call, 4);
    }
}

static void texts_that_are_refused(void)
{
    struct call call = text_call();
    const size_t right = call.text;
    const size_t wrong[] = {0, 1, right - 1, right + 1, right - 64, right + 64, right - 512, right + 512};
    uint32_t which;
    size_t i;

    name_run("texts that are refused");
    set_wear(MIXED);
    texts_of_wrong_sizes();
    for (which = 0; which < 18; which++)
        for (i = 0; i < COUNT(wrong); i++) {
            call = text_call();
            call.text = wrong[i];
            number_is(&call, 4);
            spoil_call(&call, WEAR, which);
            number_is(&call, 35); /* 35 comes before 4 */
            call.text = right;
            number_is(&call, 35);
        }
    text_is_right();
}

/* ---- The directed calls ---- */

static void directed_on(uint32_t blocks)
{
    begin("wear", 1, blocks);
    programs_by_hand();
    programs_that_are_cut();
    programs_everywhere();
    erases_tick_by_tick();
    erases_at_once();
    erases_cut();
    erases_resumed();
    programs_within();
    what_does_not_count();
    mixed_calls();
    full_counts();
    scripts_by_hand();
    stopped_scripts();
    long_script();
    refusals(blocks == 1 ? 12 : 1);
    refusals_before_stops();
    texts_of_each_kind();
    texts_with_one_sector();
    if (blocks == 1)
        text_by_hand();
    texts_that_are_refused();
    end();
    no_record(blocks);
}

static void by_hand(void)
{
    size_t i;

    for (i = 0; i < COUNT(sizes); i++)
        directed_on(sizes[i]);
    changed_records();
}

/* ---- Drawn writes ---- */

static void text_now(void)
{
    memcpy(at_first, model.wear, sizeof *model.wear * sector_count());
    memset(since, 0, sizeof since);
    text_is_right();
}

static void run_drawn(void)
{
    struct call call = whole_call(SCRIPT_WEAR);

    run_worn(&call);
}

static const struct writers with_wear = {send_worn, worn_ticks, run_drawn, any_wear, text_now};

static void drawn_writes(uint64_t seed, uint32_t blocks)
{
    uint32_t turns = blocks == REF_LARGE ? 25 : 120;

    begin("drawn writes", seed, blocks);
    fresh_worn();
    for (; turns > 0; turns--)
        play_write(&with_wear);
    text_now();
    end();
}

/* ---- Random calls ---- */

static void begin_random(void)
{
    begin_sides();
    any_wear();
    steps_enough = 1;
}

static void run_steps(void)
{
    struct call call = whole_call(SCRIPT_WEAR);

    if (steps == 0)
        return;
    call.wp_high = level;
    run_worn(&call);
    no_steps();
    steps_enough = one_in(6) ? between(40, 400) : between(1, 8);
}

static void wear_send(bool wp_high, const uint8_t *sent, size_t length)
{
    gather(wp_high, sent, length, run_steps);
    if (one_in(300))
        add_long(0x05, one_in(2) ? 0 : 2, 4097);
}

/* The ticks of the last step, or a call of their own. */
static void wear_wait(uint32_t ticks)
{
    if (fits_step(ticks) && one_in(2)) {
        add_ticks(ticks);
        return;
    }
    run_steps();
    worn_ticks(ticks);
}

static void wear_power_up(const struct call *call)
{
    run_steps();
    if (YAWLSPAR_NUMBER(make_on_all(call)) == 0)
        forget_operations();
}

/* The steps so far, or ticks, with faults, none of which may be seen. */
static void strange_call(void)
{
    struct call call = one_in(2) ? whole_call(SCRIPT_WEAR) : ticks_call(below(200000));
    uint32_t faults = one_in(2) ? WEAR : 1u << below(6);

    while (one_in(2))
        faults |= one_in(4) ? WEAR : 1u << below(6);
    spoil_call(&call, faults, below(24));
    if (one_in(4))
        call.record = no_record_length(below(5));
    run_worn(&call);
}

static void wear_strange(void)
{
    switch (below(4)) {
    case 0:
        any_wear();
        break;
    case 1:
        text_now();
        break;
    default:
        strange_call();
        break;
    }
}

static void wear_settle(void)
{
    if (steps >= steps_enough || one_in(2))
        run_steps();
}

static const struct takers in_wear = {begin_random, wear_power_up, wear_send, wear_wait, wear_strange, wear_settle};

static void random_wear(uint64_t seed)
{
    play_traffic(&in_wear, "random calls", seed, seed % 7 == 5 ? 150 : 2500); /* 512 blocks by one seed in seven */
    run_steps();
    whole_is_same();
}

static void run_seed(uint64_t seed)
{
    static const uint32_t drawn[] = {1, 4, 1, 8, 16, 1, 4, 8, 1, REF_LARGE};

    drawn_writes(seed, drawn[seed % COUNT(drawn)]);
    if (seed % 2 == 0)
        random_wear(seed / 2);
}

int main(int argc, char **argv)
{
    if (!run_seeds(argc, argv, by_hand, run_seed, LAST_SEED))
        return 2;
    printf("wear: %llu calls compared, %llu of them with wear, 0 differences\n", (unsigned long long)calls,
           (unsigned long long)wear_calls);
    return 0;
}
