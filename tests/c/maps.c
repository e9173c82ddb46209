/*
 * Maps of blank pages: the four functions of yawlspar.h on them beside the reference model's, and ticks and scripts that
 * are lent a map beside those that are not.
 *
 *   maps               the directed calls, and drawn writes and random calls of the seeds 1 to 40
 *   maps FIRST LAST    drawn writes and random calls of the seeds FIRST to LAST alone
 *
 * Ticks and scripts are made three times, on memory of its own each time: with a map on the side `model`, by the
 * reference on the side `reference`, and without a map by yawlspar_tick or yawlspar_script on the side `single`. The
 * result, the record's bytes, array, rows, output, each entry of the lists and the map are then compared, with the
 * guards around them.
 *
 * The maps that are lent are right ones and wrong ones of many kinds. A right map has to stay right: after each call
 * each of its bits is held against its page here. What a wrong one has to become is worked out by hand or by the
 * reference.
 *
 * The program prints one line with the number of calls and of differences. The first difference ends it: it is told
 * before that line, and the exit status is 1. Bad usage is 2.
 */
#include "together.h"

#include "../traffic/draws.h"
#include "drawn.h"
#include "steps.h"

extern int printf(const char *format, ...) __attribute__((format(printf, 1, 2)));
extern int memcmp(const void *, const void *, unsigned long);
extern void *memcpy(void *, const void *, unsigned long);
extern void *memset(void *, int, unsigned long);

const char *const program_name = "maps";

#define LAST_SEED 40u

static const uint32_t sizes[] = {1, 4, 8, 16, REF_LARGE};

/* ---- The map and its pages ---- */

static size_t map_length(void)
{
    return fitting(TICK_MAP).map;
}

static bool bit_of(uint32_t page)
{
    return (model.map[page / 8] >> page % 8 & 1) != 0;
}

static bool is_blank(uint32_t page)
{
    static uint8_t erased[REF_PAGE];

    memset(erased, 0xFF, sizeof erased);
    return memcmp(model.array + (size_t)page * REF_PAGE, erased, sizeof erased) == 0;
}

static bool right; /* the map is right */

static void map_is_right(const struct call *call)
{
    uint32_t page;

    for (page = 0; page < page_count(); page++)
        if (bit_of(page) != is_blank(page))
            fail(call, "the first page whose bit is wrong", page_count(), page);
}

static void make_right(void)
{
    uint32_t page;

    memset(model.map, 0, map_length());
    for (page = 0; page < page_count(); page++)
        if (is_blank(page))
            model.map[page / 8] |= (uint8_t)(1u << page % 8);
}

enum map_kind { RIGHT, OF_ZEROS, OF_ONES, INVERTED, DAMAGED, OF_ANY, MAP_KINDS };

static void change_each_byte(enum map_kind kind)
{
    size_t i;

    for (i = 0; i < map_length(); i++)
        model.map[i] = kind == INVERTED ? (uint8_t)~model.map[i] : any_byte();
}

/* Some bits are wrong. */
static void damage(void)
{
    uint32_t count = between(1, 5);

    for (; count > 0; count--)
        model.map[below((uint32_t)map_length())] ^= (uint8_t)(1u << below(8));
}

static void set_map(enum map_kind kind)
{
    make_right();
    if (kind == OF_ZEROS || kind == OF_ONES)
        memset(model.map, kind == OF_ONES ? 0xFF : 0x00, map_length());
    if (kind == INVERTED || kind == OF_ANY)
        change_each_byte(kind);
    if (kind == DAMAGED)
        damage();
    memcpy(reference.map, model.map, map_length());
    right = kind == RIGHT;
}

/* Half of them are right. */
static void any_map(void)
{
    set_map(one_in(2) ? RIGHT : (enum map_kind)below(MAP_KINDS));
}

/* ---- Calls ---- */

/* The same call with no map. */
static struct call plain(const struct call *call)
{
    struct call without = *call;

    without.kind = call->kind == TICK_MAP ? TICK : SCRIPT;
    return without;
}

/* Ticks or a script in all three ways. 36 is the only number that the plain call does not give. */
static uint64_t run_mapped(const struct call *call)
{
    struct call without = plain(call);
    uint64_t got, expected;

    prepare_side(&single, &without);
    got = step(call);
    if (YAWLSPAR_NUMBER(got) != YAWLSPAR_BAD_MAP) {
        expected = call_model(&single, &without);
        if (got != expected)
            fail_result(call, expected, got);
    }
    compare_with_single(call, same_memory_in_part);
    if (right)
        map_is_right(call);
    return got;
}

static struct call ticks_call(uint64_t ticks)
{
    struct call call = fitting(TICK_MAP);

    call.ticks = ticks;
    return call;
}

static void mapped_ticks(uint64_t ticks)
{
    struct call call = ticks_call(ticks);

    run_mapped(&call);
}

static void mapped_is(const struct call *call, uint64_t number, uint64_t above)
{
    uint64_t got = run_mapped(call);

    if (got != number + 256 * above)
        fail_result(call, number + 256 * above, got);
}

static void ticks_are(uint64_t ticks, uint64_t worked)
{
    struct call call = ticks_call(ticks);

    mapped_is(&call, 0, worked);
}

static void script_is(uint64_t number, uint64_t at)
{
    struct call call = whole_call(SCRIPT_MAP);

    mapped_is(&call, number, at);
}

static void rebuild(void)
{
    struct call call = fitting(MAP_REBUILD);

    number_is(&call, 0);
    right = true;
    map_is_right(&call);
}

static void next_is(uint64_t page, uint64_t number, uint64_t next)
{
    struct call call = fitting(MAP_NEXT);

    call.page = page;
    result_is(&call, number, next);
}

static void query(uint64_t page)
{
    struct call call = fitting(MAP_NEXT);

    call.page = page;
    step(&call);
}

/* ---- What the parts hold ---- */

static void set_places(size_t at, size_t length, int byte)
{
    memset(model.array + at, byte, length);
    memset(reference.array + at, byte, length);
    memset(single.array + at, byte, length);
}

static void set_page(uint32_t page, int byte)
{
    set_places((size_t)page * REF_PAGE, REF_PAGE, byte);
}

static void set_array(int byte)
{
    set_places(0, stored_length(), byte);
}

static void begin_sides(void)
{
    begin_single();
    begin_maps();
    set_map(RIGHT);
    no_steps();
}

static void begin(const char *name, uint64_t seed, uint32_t blocks)
{
    begin_draws(seed);
    begin_run(name, seed, blocks);
    powered(blocks);
    begin_sides();
}

static void end(void)
{
    struct call call = fitting(TICK);

    end_run();
    compare_with_single(&call, same_memory);
}

/* The map's first bytes, and the byte that all after them are. */
static void map_is(const void *bytes, size_t count, uint8_t rest)
{
    struct call call = fitting(TICK_MAP);
    const uint8_t *expected = bytes;
    size_t i;

    for (i = 0; i < map_length(); i++)
        if (model.map[i] != (i < count ? expected[i] : rest))
            fail(&call, "the first byte of the map that is not as worked out", map_length(), i);
}

static void bit_is(uint32_t page, bool expected)
{
    struct call call = fitting(TICK_MAP);

    if (bit_of(page) != expected)
        fail(&call, "the bit of a page", expected, !expected);
}

/* ---- Rebuild ---- */

/* Low bit first. The last page is the high bit of the last byte. */
static void one_blank_page(void)
{
    static const struct {
        uint32_t page, byte;
        uint8_t bits;
    } each[] = {{0, 0, 0x01}, {1, 0, 0x02}, {3, 0, 0x08}, {7, 0, 0x80}, {8, 1, 0x01}, {12, 1, 0x10}, {255, 31, 0x80}};
    struct call call = fitting(MAP_REBUILD);
    uint8_t expected[32], last;
    size_t i;

    name_run("one blank page");
    set_array(0x00);
    rebuild();
    map_is("", 0, 0x00);
    for (i = 0; i < COUNT(each); i++) {
        set_page(each[i].page, 0xFF);
        memset(expected, 0, sizeof expected);
        expected[each[i].byte] = each[i].bits;
        rebuild();
        map_is(expected, sizeof expected, 0x00);
        set_page(each[i].page, 0x00);
    }
    set_page(page_count() - 1, 0xFF);
    rebuild();
    last = model.map[map_length() - 1];
    if (last != 0x80)
        fail(&call, "the last byte of the map", 0x80, last);
}

/* A byte of page 12 that is not FFh, at each place of it. */
static void one_byte_of_a_page(void)
{
    static const uint8_t values[] = {0xFE, 0x7F, 0x00, 0xEF};
    uint32_t place, by = on_large() ? 85 : stored_length() > REF_BLOCK ? 17 : 1;

    name_run("one byte that is not FFh");
    set_array(0xFF);
    rebuild();
    map_is("", 0, 0xFF);
    for (place = 0; place < REF_PAGE; place += by) {
        set_places(12 * REF_PAGE + place, 1, values[place % COUNT(values)]);
        rebuild();
        map_is("\xFF\xEF", 2, 0xFF);
        set_page(12, 0xFF);
    }
    set_page(12, 0xFE); /* a page with an FFh byte, and one with all but one */
    set_places(12 * REF_PAGE, 1, 0xFF);
    rebuild();
    map_is("\xFF\xEF", 2, 0xFF);
}

/* FEh at the first, the last or any place of a page, in blank pages and in others. */
static void nearly_blank_pages(void)
{
    uint32_t times = on_large() ? 3 : 40, i;

    name_run("nearly blank pages");
    for (; times > 0; times--) {
        set_array(one_in(2) ? 0xFF : 0x00);
        for (i = between(1, 9); i > 0; i--) {
            uint32_t page = one_in(4) ? page_count() - 1 : below(page_count());
            uint32_t place = one_in(3) ? 0 : one_in(2) ? REF_PAGE - 1 : below(REF_PAGE);

            set_page(page, 0xFF);
            set_places((size_t)page * REF_PAGE + place, 1, one_in(4) ? 0xFF : 0xFE);
        }
        set_map((enum map_kind)below(MAP_KINDS)); /* what the map held does not matter */
        rebuild();
    }
}

/* Sizes that are none. Some are one modulo 2^8, 2^16 or 2^32, and some have its array or its map modulo 2^64. */
static void each_wrong_size(enum call_kind kind)
{
    const uint64_t blocks = fitting(kind).blocks;
    const uint64_t wrong[] = {0,
                              2,
                              3,
                              15,
                              17,
                              256,
                              511,
                              513,
                              blocks + 256,
                              blocks + 65536,
                              blocks + (UINT64_C(1) << 32),
                              blocks + (UINT64_C(1) << 48),
                              blocks + (UINT64_C(1) << 59),
                              blocks + (UINT64_C(1) << 63),
                              UINT64_MAX};
    struct call call = fitting(kind);
    size_t i;

    for (i = 0; i < COUNT(wrong); i++) {
        if (ref_size_ok(wrong[i]))
            continue;
        call.blocks = wrong[i];
        call.map = fitting(kind).map;
        number_is(&call, 1);
        call.map++; /* 1 comes before 36 */
        number_is(&call, 1);
        call.page = UINT64_MAX; /* and before 37 */
        number_is(&call, 1);
    }
}

/* Another size than that of what is lent: 1 for an array, 36 for a map alone. */
static void each_other_size(enum call_kind kind)
{
    struct call call = fitting(kind);
    size_t i;

    for (i = 0; i < COUNT(sizes); i++)
        if (sizes[i] != fitting(kind).blocks) {
            call.blocks = sizes[i];
            number_is(&call, kind == MAP_REBUILD ? 1 : 36);
        }
}

static void wrong_rebuilds(void)
{
    uint32_t which;

    name_run("rebuilds that are refused");
    set_map(OF_ANY);
    each_wrong_size(MAP_REBUILD);
    each_other_size(MAP_REBUILD);
    for (which = 0; which < 18; which++) {
        struct call call = fitting(MAP_REBUILD);

        spoil_call(&call, MAP, which);
        number_is(&call, 36);
        spoil_call(&call, ARRAY, which);
        number_is(&call, 1);
        call.map = fitting(MAP_REBUILD).map;
        number_is(&call, 1);
    }
}

/* ---- The query ---- */

static void queries_by_hand(void)
{
    uint64_t pages = page_count();

    name_run("queries");
    set_map(OF_ZEROS);
    next_is(0, 0, pages);
    next_is(pages - 1, 0, pages);
    next_is(pages, 37, 0);
    next_is(pages + 1, 37, 0);
    next_is(UINT64_C(1) << 32, 37, 0);
    next_is((UINT64_C(1) << 56) + 3, 37, 0);
    next_is(UINT64_MAX, 37, 0);
    model.map[1] = reference.map[1] = 0x12; /* pages 9 and 12 */
    next_is(0, 0, 9);
    next_is(8, 0, 9);
    next_is(9, 0, 9);
    next_is(10, 0, 12);
    next_is(12, 0, 12);
    next_is(13, 0, pages);
    model.map[map_length() - 1] = reference.map[map_length() - 1] = 0x80;
    next_is(13, 0, pages - 1);
    next_is(pages - 1, 0, pages - 1);
    next_is(pages, 37, 0);
    set_map(OF_ONES);
    next_is(0, 0, 0);
    next_is(7, 0, 7);
    next_is(8, 0, 8);
    next_is(pages - 1, 0, pages - 1);
    next_is(pages, 37, 0);
}

/* From the first page and the last, from those about each blank one, and beyond. */
static void queries_about(uint32_t page)
{
    uint32_t last = page_count() - 1;

    query(0);
    query(last);
    query(page);
    query(page > 0 ? page - 1 : 0);
    query(page + 1);
    query(page > 64 ? page - 64 : 0);
    query(below(last + 1));
    query(last + 1 + below(3));
}

/* Each page of a small part alone in the map, and some of a large one. */
static void queries_of_one_page(void)
{
    uint32_t page, by = page_count() > 256 ? page_count() / 61 : 1;

    name_run("queries: one blank page");
    for (page = 0; page < page_count(); page += by) {
        set_map(OF_ZEROS);
        model.map[page / 8] = reference.map[page / 8] = (uint8_t)(1u << page % 8);
        queries_about(page);
    }
}

static void queries_of_each_kind(void)
{
    uint32_t kind, i;

    name_run("queries: maps of each kind");
    for (kind = 0; kind < MAP_KINDS; kind++) {
        set_map((enum map_kind)kind);
        for (i = 0; i < 20; i++)
            queries_about(below(page_count()));
    }
}

static void wrong_queries(void)
{
    uint32_t which;

    name_run("queries that are refused");
    set_map(OF_ONES);
    each_wrong_size(MAP_NEXT);
    each_other_size(MAP_NEXT);
    for (which = 0; which < 18; which++) {
        struct call call = fitting(MAP_NEXT);

        spoil_call(&call, MAP, which);
        number_is(&call, 36);
        call.page = page_count(); /* 36 comes before 37 */
        number_is(&call, 36);
    }
}

/* ---- Ticks, worked out by hand ---- */

static void enabled(const void *sent, size_t length)
{
    make_transaction("\x06", 1);
    make_transaction(sent, length);
}

static void begin_blank(const char *name, enum map_kind kind)
{
    name_run(name);
    fresh(0, 0);
    set_array(0xFF);
    set_map(kind);
}

static void begin_full(const char *name, enum map_kind kind)
{
    name_run(name);
    fresh(0, 0);
    set_array(0x00);
    set_map(kind);
}

/* FFh over FFh leaves the page blank; the third byte does not. */
static void program_by_hand(void)
{
    begin_blank("a program of FFh, FFh and 7Fh", RIGHT);
    enabled("\x02\x00\x03\xFE\xFF\xFF\x7F", 7);
    map_is("", 0, 0xFF);
    ticks_are(2, 2);
    map_is("", 0, 0xFF);
    ticks_are(5, 1);
    map_is("\xF7", 1, 0xFF);
    enabled("\x02\x00\x03\x00\xFF", 5); /* FFh where 7Fh is */
    ticks_are(1, 1);
    map_is("\xF7", 1, 0xFF);
    enabled("\x02\x00\x04\x80\xFF", 5);
    ticks_are(1, 1);
    map_is("\xF7", 1, 0xFF);
}

/* A tick makes its page's bit right, and no other. */
static void program_and_wrong_maps(void)
{
    begin_blank("a program of FFh with a map of zeros", OF_ZEROS);
    enabled("\x02\x00\x05\x00\xFF\xFF", 6);
    ticks_are(0, 0);
    map_is("", 0, 0x00);
    ticks_are(1, 1);
    map_is("\x20", 1, 0x00);
    model.map[0] = reference.map[0] = 0x00;
    ticks_are(4, 1);
    map_is("\x20", 1, 0x00);
    ticks_are(4, 0);
    map_is("\x20", 1, 0x00);

    begin_full("a program with a map of ones", OF_ONES);
    enabled("\x02\x00\x05\x00\xFF\xFF", 6);
    ticks_are(1, 1);
    map_is("\xDF", 1, 0xFF);
}

/* 5 ticks do the pages 16 to 20; the sector has 16 to 31. */
static void sector_by_hand(void)
{
    begin_full("a sector erase", RIGHT);
    enabled("\x20\x00\x1A\xBC", 4);
    ticks_are(5, 5);
    map_is("\x00\x00\x1F", 3, 0x00);
    make_transaction("\x75", 1);
    ticks_are(9, 0);
    map_is("\x00\x00\x1F", 3, 0x00);
    make_transaction("\x7A", 1);
    ticks_are(6, 6);
    map_is("\x00\x00\xFF\x07", 4, 0x00);
    ticks_are(4096, 5);
    map_is("\x00\x00\xFF\xFF", 4, 0x00);

    begin_full("a sector erase with a map of ones", OF_ONES);
    enabled("\xD7\x00\x10\x00", 4);
    ticks_are(16, 16);
    map_is("", 0, 0xFF);
}

static void blocks_by_hand(void)
{
    uint8_t half[32];

    memset(half, 0x00, 16);
    memset(half + 16, 0xFF, 16);
    begin_full("an erase of half a block", RIGHT);
    enabled("\x52\x00\x80\x00", 4);
    ticks_are(128, 128);
    map_is(half, 32, 0x00);
    begin_full("an erase of a block", RIGHT);
    enabled("\xD8\x00\x12\x34", 4);
    ticks_are(130, 130);
    memset(half, 0xFF, 16);
    memset(half + 16, 0x00, 16);
    half[16] = 0x03;
    map_is(half, 32, 0x00);
    ticks_are(4096, 126);
    memset(half, 0xFF, 32);
    map_is(half, 32, 0x00);
}

/* 13 ticks, then 4 more, and then all that are left. */
static void chip_by_hand(void)
{
    uint64_t most = on_large() ? 131072 : 4096;

    begin_full("a chip erase", RIGHT);
    enabled("\xC7", 1);
    ticks_are(13, 13);
    map_is("\xFF\x1F", 2, 0x00);
    ticks_are(4, 4);
    map_is("\xFF\xFF\x01", 3, 0x00);
    ticks_are(most, page_count() - 17);
    map_is("", 0, 0xFF);
    ticks_are(most, 0);

    begin_full("a chip erase with a map of zeros", OF_ZEROS);
    enabled("\x60", 1);
    ticks_are(most, page_count());
    map_is("", 0, 0xFF);
}

/* The bits of a cut erase are those of its pages, and those of a cut program too. */
static void cut_by_hand(void)
{
    begin_full("a reset in an erase", RIGHT);
    enabled("\x20\x00\x00\x00", 4);
    ticks_are(3, 3);
    make_transaction("\x66", 1);
    ticks_are(1, 1);
    make_transaction("\x99", 1);
    ticks_are(9, 0);
    map_is("\x0F", 1, 0x00);
    enabled("\x02\x00\x01\x00\xFF\x00\x00", 7);
    ticks_are(1, 1);
    map_is("\x0F", 1, 0x00);
    make_transaction("\x75", 1);
    ticks_are(5, 0);
    map_is("\x0F", 1, 0x00);
    make_transaction("\x7A", 1);
    ticks_are(1, 1);
    map_is("\x0D", 1, 0x00);
    make_transaction("\x66", 1);
    make_transaction("\x99", 1);
    map_is("\x0D", 1, 0x00);
}

/* A program of page 16 while an erase of the pages 0 to 15 is suspended. */
static void program_within(void)
{
    begin_full("a program within a suspended erase", RIGHT);
    set_page(16, 0xFF);
    set_map(RIGHT);
    enabled("\x20\x00\x00\x00", 4);
    ticks_are(2, 2);
    make_transaction("\x75", 1);
    enabled("\x02\x00\x10\x00\xFF\x5A", 6);
    ticks_are(1, 1);
    map_is("\x03\x00\x01", 3, 0x00);
    ticks_are(20, 1);
    map_is("\x03", 1, 0x00);
    make_transaction("\x7A", 1);
    ticks_are(20, 14);
    map_is("\xFF\xFF", 2, 0x00);
}

/* Ticks of rows and registers reach no page, whatever their bytes and the map are. */
static void rows_and_registers(void)
{
    static const struct {
        uint8_t length, bytes[6];
        uint64_t ticks;
    } each[] = {{4, {0x64, 0x00, 0x00, 0x00}, 1}, {4, {0x64, 0x00, 0x30, 0xFF}, 1},
                {6, {0x62, 0x00, 0x10, 0x00, 0xFF, 0x00}, 2}, {5, {0x62, 0x00, 0x00, 0x07, 0x00}, 1},
                {2, {0x01, 0x40}, 1}, {2, {0x42, 0x80}, 1}, {2, {0x85, 0xE0}, 1}};
    size_t i;

    for (i = 0; i < COUNT(each); i++) {
        begin_full("rows and registers with a map of ones", OF_ONES);
        enabled(each[i].bytes, each[i].length);
        ticks_are(9, each[i].ticks);
        map_is("", 0, 0xFF);
        begin_blank("rows and registers with a map of zeros", OF_ZEROS);
        enabled(each[i].bytes, each[i].length);
        ticks_are(9, each[i].ticks);
        map_is("", 0, 0x00);
    }
}

/* A program in each byte of a map, at the first and the last page of blocks, and on 512 blocks in both banks. */
static void programs_everywhere(void)
{
    uint32_t by = page_count() > 4096 ? 1021 : page_count() > 256 ? 61 : 5, page;
    uint8_t sent[] = {0x02, 0x00, 0x00, 0x00, 0x00};

    begin_blank("programs everywhere", RIGHT);
    for (page = 0; page < page_count(); page += by) {
        if (on_large())
            make_transaction(page < BANK / REF_PAGE ? "\x17\x00" : "\x17\x01", 2);
        sent[1] = (uint8_t)(page >> 8);
        sent[2] = (uint8_t)page;
        enabled(sent, sizeof sent);
        ticks_are(1, 1);
        bit_is(page, false);
        query(page);
    }
}

/* ---- Scripts, worked out by hand ---- */

/* Erases sector 1, programs page 17, and begins an erase of sector 2. */
static void add_update(void)
{
    add_code(0x06, 0);
    add("\x20\x00\x10\x00", 4, 16);
    add_code(0x06, 0);
    add("\x02\x00\x11\x00\xFF\xA5", 6, 2);
    add_code(0x06, 0);
    add("\x20\x00\x20\x00", 4, 3);
}

static void scripts_by_hand(void)
{
    begin_full("a script", RIGHT);
    no_steps();
    add_update();
    script_is(0, 6);
    map_is("\x00\x00\xFD\xFF\x07", 5, 0x00);
    no_steps();
    script_is(0, 0);
    map_is("\x00\x00\xFD\xFF\x07", 5, 0x00);

    begin_full("a script with a map of ones", OF_ONES);
    no_steps();
    add_update();
    script_is(0, 6);
    map_is("\xFF\xFF\xFD", 3, 0xFF);

    begin_blank("a script with a map of zeros", OF_ZEROS);
    no_steps();
    add_update();
    script_is(0, 6);
    map_is("\x00\x00\xFD\xFF\x07", 5, 0x00);
}

/* What was done before a stop stays done, in the map too. */
static void stopped_scripts(void)
{
    begin_full("a script that stops by its length", RIGHT);
    no_steps();
    add_update();
    add("", 0, 7);
    add("\x05\x00", 2, 13);
    script_is(3, 6);
    map_is("\x00\x00\xFD\xFF\x07", 5, 0x00);

    begin_full("a script that stops by its ticks", RIGHT);
    no_steps();
    add_update();
    add("\x05\x00", 2, 4097);
    add("\x05\x00", 2, 1);
    if (on_large()) { /* where they are not too many */
        script_is(0, 8);
        map_is("\x00\x00\xFD\xFF\xFF\xFF", 6, 0x00);
        return;
    }
    script_is(6, 6);
    map_is("\x00\x00\xFD\xFF\x07", 5, 0x00);
}

/* ---- Refusals ---- */

#define TICK_FAULTS (ARRAY | ROWS | MAP)
#define SCRIPT_FAULTS (ARRAY | ROWS | LISTS | SUM | OUTPUT | LEVEL | MAP)

/* 1, 36, 2, 5, 6 in this order. */
static void ticks_refused(uint32_t faults, uint32_t which, bool too_many, bool record)
{
    struct call call = ticks_call(too_many ? ref_ticks_most(part.size) + 1 + which : 2);
    uint64_t number = refused_with(faults, record);

    spoil_call(&call, faults, which);
    if (!record)
        call.record = no_record_length(which);
    mapped_is(&call, number == 0 && too_many ? 6 : number, 0);
}

/* 1, 36, 2, 7, 4, 5 in this order. */
static void script_refused(uint32_t faults, uint32_t which, bool record)
{
    struct call call = whole_call(SCRIPT_MAP);

    spoil_call(&call, faults, which);
    if (!record)
        call.record = no_record_length(which);
    mapped_is(&call, refused_with(faults, record), 0);
}

static void each_set_of_faults(uint32_t which)
{
    uint32_t faults;

    for (faults = 0; faults <= SCRIPT_FAULTS; faults++) {
        if ((faults & ~(uint32_t)SCRIPT_FAULTS) != 0)
            continue;
        if (faults != 0)
            script_refused(faults, which + faults, true);
        script_refused(faults, which + faults, false);
        if ((faults & ~(uint32_t)TICK_FAULTS) != 0)
            continue;
        if (faults != 0)
            ticks_refused(faults, which + faults, false, true);
        ticks_refused(faults, which + faults, true, true);
        ticks_refused(faults, which + faults, false, false);
        ticks_refused(faults, which + faults, true, false);
    }
}

/* On a part that is busy: ticks that pass where they should not show, in the map too. */
static void refusals(uint32_t times)
{
    uint32_t which;

    begin_full("refusals in their order", OF_ANY);
    enabled("\x20\x00\x10\x00", 4);
    ticks_are(2, 2);
    no_steps();
    add("\x05\x00", 2, 2);
    add_code(0x66, 1);
    for (which = 0; which < times; which++)
        each_set_of_faults(which);
    set_map(OF_ZEROS);
    script_is(0, 2); /* and with no fault it runs */
    map_is("\x00\x00\x1C", 3, 0x00);
}

/* 3 and 6 of a step come after all others. */
static void refusals_before_stops(void)
{
    begin_full("refusals before a stop", OF_ANY);
    no_steps();
    add("", 0, 0);
    each_set_of_faults(1);
    script_is(3, 0);
    no_steps();
    each_set_of_faults(2);
    script_is(0, 0);
}

/* Bytes that hold no record: there is no size to judge the map by. */
static void no_record(uint32_t blocks)
{
    uint32_t faults;

    begin_draws(blocks);
    begin_run("no record", blocks, blocks);
    begin_sides();
    set_map(OF_ANY);
    add("\x05\x00", 2, 2);
    for (faults = 0; faults <= SCRIPT_FAULTS; faults++) {
        struct call ticks = ticks_call(2), whole = whole_call(SCRIPT_MAP);

        spoil_call(&ticks, faults, faults);
        mapped_is(&ticks, (faults & ROWS) != 0 ? 2 : 5, 0);
        if ((faults & IMAGE) != 0)
            continue;
        spoil_call(&whole, faults, faults);
        mapped_is(&whole, refused_with(faults, false), 0);
    }
}

/* ---- Records whose bytes were changed ---- */

static void set_record(const uint8_t *record)
{
    memcpy(model.record, record, YAWLSPAR_RECORD_BYTES);
    memcpy(single.record, record, YAWLSPAR_RECORD_BYTES);
}

/* The same call with a map and with none, where the reference does not know the record. */
static uint64_t run_alone(const struct call *call)
{
    struct call without = plain(call);
    uint64_t got, expected;

    prepare_side(&model, call);
    prepare_side(&single, &without);
    got = call_model(&model, call);
    expected = call_model(&single, &without);
    if (got != expected)
        fail_result(call, expected, got);
    memcpy(single.map, model.map, map_length()); /* it is held against its array */
    compare_with_single(call, same_memory_in_part);
    map_is_right(call);
    return got;
}

/* 36 if the bytes hold a record of this size, and else what the call without a map says. With an array that is too long
 * a record of any size is a 1. */
static void wrong_map_alone(const struct call *call, uint64_t number)
{
    struct call longer = plain(call), spoilt = *call;
    uint64_t expected, got;

    longer.array++;
    if (number != 1 && YAWLSPAR_NUMBER(call_model(&single, &longer)) == 1)
        expected = 36;
    else
        expected = number;
    spoil_call(&spoilt, MAP, (uint32_t)calls);
    prepare_side(&model, &spoilt);
    prepare_side(&single, &longer);
    got = call_model(&model, &spoilt);
    if (got != expected)
        fail_result(&spoilt, expected, got);
    compare_with_single(call, same_memory_in_part);
}

static void try_record(const uint8_t *record, const struct call *call)
{
    uint64_t number;

    set_record(record);
    number = YAWLSPAR_NUMBER(run_alone(call));
    if (number != 0 && number != 1 && number != 5)
        fail(call, "the number of a call with a changed record", 5, number);
    set_record(record);
    wrong_map_alone(call, number);
}

static void each_byte_changed(void)
{
    uint8_t sound[YAWLSPAR_RECORD_BYTES], changed[YAWLSPAR_RECORD_BYTES];
    struct call ticks = ticks_call(3), whole = whole_call(SCRIPT_MAP);
    uint32_t i, k;

    memcpy(sound, model.record, sizeof sound);
    for (i = 0; i < sizeof sound; i++) {
        const uint8_t values[] = {0x00, 0xFF, (uint8_t)(sound[i] ^ 0x01), (uint8_t)(sound[i] ^ 0x10)};

        memcpy(changed, sound, sizeof changed);
        for (k = 0; k < COUNT(values); k++) {
            changed[i] = values[k];
            try_record(changed, &ticks);
            try_record(changed, &whole);
        }
    }
    memset(changed, 0, sizeof changed);
    try_record(changed, &ticks);
    try_record(changed, &whole);
}

static void changed_in(const char *name, const void *sent, size_t length, uint64_t ticks)
{
    begin(name, 1, 1);
    enabled(sent, length);
    mapped_ticks(ticks);
    no_steps();
    add("\x05\x00", 2, 1);
    add_code(0x06, 2);
    each_byte_changed();
}

static void changed_records(void)
{
    changed_in("changed in a program", "\x02\x00\x12\xFE\x01\x02\x03\x04\x05\x06", 10, 1);
    changed_in("changed in an erase", "\xD8\x00\x00\x00", 4, 9);
    changed_in("changed in a chip erase", "\xC7", 1, 1);
    changed_in("changed in a row's program", "\x62\x00\x10\x00\x0F\xF0\x0F\xF0\x0F", 9, 1);
}

/* ---- The directed calls ---- */

static void directed_on(uint32_t blocks)
{
    begin("maps", 1, blocks);
    one_blank_page();
    one_byte_of_a_page();
    nearly_blank_pages();
    wrong_rebuilds();
    queries_by_hand();
    queries_of_one_page();
    queries_of_each_kind();
    wrong_queries();
    program_by_hand();
    program_and_wrong_maps();
    sector_by_hand();
    blocks_by_hand();
    chip_by_hand();
    cut_by_hand();
    program_within();
    rows_and_registers();
    programs_everywhere();
    scripts_by_hand();
    stopped_scripts();
    refusals(blocks == 1 ? 12 : 1);
    refusals_before_stops();
    end();
    no_record(blocks);
}

static void by_hand(void)
{
    size_t i;

    for (i = 0; i < COUNT(sizes); i++)
        directed_on(sizes[i]);
    changed_records();
}

/* ---- Drawn writes ---- */

/* What falls between two pieces of an operation, where they are no steps of a script. */
static void change_map(void)
{
    any_map();
}

static void ask_map(void)
{
    queries_about(below(page_count()));
}

static void send_mapped(const void *sent, size_t length)
{
    make_transaction(sent, length);
}

static void wait_mapped(uint32_t ticks)
{
    mapped_ticks(ticks);
}

static void run_drawn(void)
{
    struct call call = whole_call(SCRIPT_MAP);

    run_mapped(&call);
}

static const struct writers with_a_map = {send_mapped, wait_mapped, run_drawn, change_map, ask_map};

/* Pages are made anew: blank ones, nearly blank ones and others. */
static void draw_pages(void)
{
    uint32_t count = between(1, 30);

    for (; count > 0; count--) {
        uint32_t address = any_address(), page = address / REF_PAGE;

        set_page(page, one_in(3) ? 0x5A : 0xFF);
        if (one_in(3))
            set_places(address, 1, 0xFE);
    }
    any_map();
}

static void drawn_writes(uint64_t seed, uint32_t blocks)
{
    uint32_t turns = blocks == REF_LARGE ? 25 : 120, turn;

    begin("drawn writes", seed, blocks);
    fresh(0, 0);
    for (turn = 0; turn < turns; turn++) {
        if (turn % 8 == 0)
            draw_pages();
        play_write(&with_a_map);
    }
    rebuild();
    end();
}

/* ---- Random calls ---- */

static void begin_random(void)
{
    begin_sides();
    any_map();
    steps_enough = 1;
}

static void run_steps(void)
{
    struct call call = whole_call(SCRIPT_MAP);

    if (steps == 0)
        return;
    call.wp_high = level;
    run_mapped(&call);
    no_steps();
    steps_enough = one_in(6) ? between(40, 400) : between(1, 8);
}

static void map_send(bool wp_high, const uint8_t *sent, size_t length)
{
    gather(wp_high, sent, length, run_steps);
    if (one_in(300))
        add_long(0x05, one_in(2) ? 0 : 2, 4097);
}

/* The ticks of the last step, or a call of their own. */
static void map_wait(uint32_t ticks)
{
    if (fits_step(ticks) && one_in(2)) {
        add_ticks(ticks);
        return;
    }
    run_steps();
    mapped_ticks(ticks);
}

static void map_power_up(const struct call *call)
{
    run_steps();
    make_call(call);
}

/* The steps so far, or ticks, with faults, none of which may be seen. */
static void strange_call(void)
{
    struct call call = one_in(2) ? whole_call(SCRIPT_MAP) : ticks_call(below(200000));
    uint32_t faults = one_in(2) ? MAP : 1u << below(6);

    while (one_in(2))
        faults |= 1u << below(8);
    spoil_call(&call, faults, below(24));
    if (one_in(4))
        call.record = no_record_length(below(5));
    run_mapped(&call);
}

static void map_strange(void)
{
    switch (below(5)) {
    case 0:
        any_map();
        break;
    case 1:
        rebuild();
        break;
    case 2:
        queries_about(below(page_count()));
        break;
    default:
        strange_call();
        break;
    }
}

static void map_settle(void)
{
    if (steps >= steps_enough || one_in(2))
        run_steps();
}

static const struct takers in_maps = {begin_random, map_power_up, map_send, map_wait, map_strange, map_settle};

static void random_maps(uint64_t seed)
{
    struct call call = fitting(TICK);

    play_traffic(&in_maps, "random calls", seed, seed % 7 == 5 ? 150 : 2000); /* 512 blocks by one seed in seven */
    run_steps();
    compare_with_single(&call, same_memory);
}

static void run_seed(uint64_t seed)
{
    static const uint32_t drawn[] = {1, 4, 1, 8, 16, 1, 4, 8, 1, REF_LARGE};

    drawn_writes(seed, drawn[seed % COUNT(drawn)]);
    if (seed % 2 == 0)
        random_maps(seed / 2);
}

int main(int argc, char **argv)
{
    if (!run_seeds(argc, argv, by_hand, run_seed, LAST_SEED))
        return 2;
    printf("maps: %llu calls compared, %llu of them with a map, 0 differences\n", (unsigned long long)calls,
           (unsigned long long)map_calls);
    return 0;
}
