/* The laws of an erase that is cut and done over, and what is no law of it.
 *
 * Part one begins an erase. Then come ticks that do not finish it, reads, calls that are refused, transactions that are
 * ignored, suspends and resumes, until it is cut: by 66h and 99h, or by a power-up. It may be cut several times, and is
 * then run to its end. Part other makes the same erase undisturbed. Both store the same then. At each cut part one
 * stores what is worked out on part other: FFh in the pages that are finished, and all else as it was.
 *
 * An update also programs pages of the unit, before it starts over with the erase. Its erase may be cut or run to its
 * end, and so may each of its programs. The last erase runs to its end, and again both parts store the same. Before
 * each later start part one stores what is worked out, with what the programs did. */
#include "restart.h"
#include "writes.h"

extern void *memcpy(void *, const void *, unsigned long);
extern void *memset(void *, int, unsigned long);

#define STARTS_MOST 4u   /* before the last one */
#define PROGRAMS_MOST 2u /* after a start of an update */

/* ---- An erase or a program under way on part one ---- */

enum state {
    RUNNING,
    HALTED,     /* suspended */
    PROGRAMMING /* an erase that is suspended, and a program has begun within it, which gets no ticks */
};

struct under_way {
    const struct write *write;
    uint32_t left; /* of its ticks: at least 1 */
    enum state state;
};

static struct under_way begun(const struct write *write)
{
    begin(one, write);
    return (struct under_way){write, write->ticks, RUNNING};
}

/* A write of a row cannot, nor can the chip erase, which is the one that has no address. */
static bool can_be_suspended(const struct under_way *way)
{
    return way->state == RUNNING && !way->write->unit.of_rows && way->write->length > 1;
}

/* A suspended erase takes 06h, 04h and 02h, and a suspended program does not. The erase has the larger unit. */
static bool takes_programs(const struct under_way *way)
{
    return way->state == HALTED && way->write->unit.bytes > REF_PAGE;
}

static void suspend(struct under_way *way)
{
    executed(one, one_in(2) ? "\x75" : "\xB0", 1);
    way->state = HALTED;
}

static void resume(struct under_way *way)
{
    executed(one, one_in(2) ? "\x7A" : "\x30", 1);
    way->state = RUNNING;
}

/* Ticks that do not finish the write. */
static void pass_some(struct under_way *way)
{
    uint32_t worked = one_in(8) ? way->left - 1 : below(way->left);

    switch (way->state) {
    case RUNNING:
        pass(one, worked, worked);
        way->left -= worked;
        break;
    case HALTED:
        pass(one, below(ticks_most() + 1), 0);
        break;
    default:
        pass(one, 0, 0);
        break;
    }
}

/* A code that the part does not take now, or does not know. Gives the number. */
static uint64_t barred_code(const struct under_way *way, uint8_t *code)
{
    static const uint8_t codes[] = {0x06, 0x04, 0x02, 0x7A, 0x30, 0x01, 0x42, 0x85, 0x83, 0x82, 0xD7, 0x20, 0x52, 0xD8,
                                    0xC7, 0x60, 0x64, 0x62, 0xB9, 0x12, 0x21, 0x5C, 0xDC, 0x17, 0xC5, 0xB7, 0x29};
    const size_t halted_codes = 5; /* the first ones: taken while an erase is suspended */
    const size_t large_codes = 8;  /* the last ones */
    size_t first = way->state == HALTED ? halted_codes : 0, i = between((uint32_t)first, COUNT(codes) - 1);

    *code = codes[i];
    if (i >= COUNT(codes) - large_codes && !is_large())
        return YAWLSPAR_UNKNOWN;
    return way->state == HALTED ? YAWLSPAR_SUSPENDED : YAWLSPAR_BUSY;
}

/* 99h with no 66h before it, or a suspend where nothing can be suspended. Gives the number. */
static uint64_t code_out_of_turn(const struct under_way *way, uint8_t *code)
{
    *code = 0x99;
    if (can_be_suspended(way) || one_in(2))
        return YAWLSPAR_OUT_OF_TURN;
    *code = one_in(2) ? 0x75 : 0xB0;
    return way->state == HALTED ? YAWLSPAR_SUSPENDED : YAWLSPAR_OUT_OF_TURN;
}

/* A transaction that the part ignores. */
static void send_in_vain(const struct under_way *way)
{
    static const uint8_t unknown[] = {0x00, 0x4B, 0x5A, 0xFF};
    struct call call = any_transaction();
    uint64_t number = YAWLSPAR_UNKNOWN;

    switch (below(4)) {
    case 0:
        message[0] = pick_byte(unknown, COUNT(unknown));
        break;
    case 1:
        call.input = call.output = 1;
        number = code_out_of_turn(way, &message[0]);
        break;
    default:
        number = barred_code(way, &message[0]);
        break;
    }
    is_result(&call, number + 256 * call.input, leaving_record(one, &call));
}

/* 66h and 99h with another transaction between them. */
static void fail_to_reset(void)
{
    executed(one, "\x66", 1);
    command_is(one, "\x00", 1, YAWLSPAR_UNKNOWN);
    command_is(one, "\x99", 1, YAWLSPAR_OUT_OF_TURN);
}

/* Any calls that neither finish the write nor drop it. */
static void meanwhile(struct under_way *way)
{
    switch (below(7)) {
    case 0:
    case 1:
        pass_some(way);
        break;
    case 2:
        send_in_vain(way);
        break;
    case 3:
        if (way->state == HALTED)
            resume(way);
        else if (can_be_suspended(way))
            suspend(way);
        break;
    case 4:
        if (takes_programs(way))
            executed(one, one_in(2) ? "\x06" : "\x04", 1);
        break;
    case 5:
        fail_to_reset();
        break;
    default:
        look_aside(one);
        break;
    }
}

static void go_on(struct under_way *way)
{
    while (!one_in(8))
        meanwhile(way);
}

static bool is_in(const struct unit *page, const struct unit *unit)
{
    return page->of_rows == unit->of_rows && page->at >= unit->at && page->at - unit->at < unit->bytes;
}

/* 06h and a program while the erase is suspended. By 02h alone, and outside of the erase's unit, it begins. */
static void program_within(struct under_way *way)
{
    struct unit page = one_in(2) ? page_in(&way->write->unit) : any_page();
    struct write program;

    draw_program(&program, &page);
    executed(one, "\x06", 1);
    if (program.bytes[0] != 0x02) {
        command_is(one, program.bytes, program.length, YAWLSPAR_SUSPENDED);
    } else if (is_in(&page, &way->write->unit)) {
        command_is(one, program.bytes, program.length, YAWLSPAR_PROTECTED);
    } else {
        executed(one, program.bytes, program.length);
        way->state = PROGRAMMING;
    }
}

/* ---- To a cut, or to its end ---- */

/* 66h and 99h, with no other transaction between them. */
static void reset_within(struct under_way *way)
{
    executed(one, "\x66", 1);
    while (one_in(2)) {
        if (one_in(2))
            refused(one);
        else
            pass_some(way);
    }
    finish_reset();
}

/* Begins the write and cuts it. The unit, which is to be erased again, is free then. Gives how many ticks are done. */
static uint32_t cut_write(const struct write *write, const struct unit *unit)
{
    struct under_way way = begun(write);

    go_on(&way);
    if (takes_programs(&way) && one_in(2)) {
        program_within(&way);
        go_on(&way);
    }
    if (one_in(2))
        reset_within(&way);
    else
        power_up_again(unit);
    is_idle(one);
    return write->ticks - way.left;
}

static void write_to_the_end(const struct write *write)
{
    struct under_way way = begun(write);

    go_on(&way);
    if (way.state == HALTED)
        resume(&way);
    wait_for(one, way.left);
    is_idle(one);
}

/* Does one of the two. Gives how many ticks are done. */
static uint32_t write_or_cut(const struct write *write, const struct unit *unit)
{
    if (one_in(2))
        return cut_write(write, unit);
    write_to_the_end(write);
    return write->ticks;
}

/* ---- The laws ---- */

/* So many ticks of the erase add to what was done before. */
static void work_out_erase_ticks(const struct write *erase, uint32_t ticks)
{
    memset(bytes_of(other, &erase->unit), 0xFF, ticks * REF_PAGE);
}

/* The same of a program: a tick for each byte that counts, which are the last 256, in the order of the data. */
static void work_out_program_ticks(const struct write *program, uint32_t ticks)
{
    uint8_t *page = bytes_of(other, &program->unit);
    uint32_t first = data_count(program) - program->ticks, i;

    for (i = first; i < first + ticks; i++)
        page[(program->start + i) % REF_PAGE] &= program->bytes[program->data + i];
}

static void cut_erase(const struct write *erase)
{
    work_out_erase_ticks(erase, cut_write(erase, &erase->unit));
    same_stored();
}

static void program_in(const struct unit *unit)
{
    struct unit page = page_in(unit);
    struct write program;

    draw_program(&program, &page);
    work_out_program_ticks(&program, write_or_cut(&program, unit));
}

/* The erase, and programs of pages of its unit, each to its end or to a cut. */
static void cut_update(const struct write *erase)
{
    uint32_t programs = below(PROGRAMS_MOST + 1);

    work_out_erase_ticks(erase, write_or_cut(erase, &erase->unit));
    for (; programs > 0; programs--) {
        stir();
        program_in(&erase->unit);
    }
    same_stored();
}

/* Starts are made with the erase, and then it is run to its end. After a cut the bank register is 00h, so that the same
 * bytes may be another unit: the command is drawn anew. The undisturbed erase gets back what the unit held before the
 * first start. */
static void done_over(void (*start)(const struct write *erase))
{
    static uint8_t held[REF_LARGE * REF_BLOCK];
    struct write undisturbed, erase;
    uint32_t starts = below(STARTS_MOST + 1);
    uint8_t *bytes;

    draw_erase(&undisturbed);
    bytes = bytes_of(other, &undisturbed.unit);
    memcpy(held, bytes, undisturbed.unit.bytes);
    erase = undisturbed;
    for (; starts > 0; starts--) {
        start(&erase);
        stir();
        draw_erase_of(&erase, &undisturbed.unit);
    }
    write_to_the_end(&erase);
    memcpy(bytes, held, undisturbed.unit.bytes);
    written(other, &undisturbed);
}

void cut_erase_done_over(void)
{
    done_over(cut_erase);
}

void cut_update_starts_over(void)
{
    done_over(cut_update);
}

/* ---- The wrong laws: ways on a blank part ---- */

/* Sector 0 holds 3Ch in its first page, and A5h in its last one, at 0F00h. */
static void first_sector_filled(void)
{
    programmed(0x0000, "\x3C", 1);
    programmed(0x0F00, "\xA5", 1);
}

/* Five ticks do the first page and not the last. */
static void first_sector_half_erased(void)
{
    first_sector_filled();
    first_sector_begun(5);
}

static void first_sector_holds(const char *first_page, const char *last_page)
{
    ends_with(0x0000, first_page, 1);
    ends_with(0x0F00, last_page, 1);
}

/* A reset clears WEL. A second erase without 06h answers 26 and gets no tick: A5h stays. */
static void done_over_without_enable(void)
{
    one_way("an erase that is cut and done over", 1);
    first_sector_half_erased();
    reset();
    first_sector_holds("\xFF", "\xA5");
    first_sector_erased();
    first_sector_holds("\xFF", "\xFF");

    one_way("the same without 06h before the second erase", 1);
    first_sector_half_erased();
    reset();
    command("\xD7\x00\x00\x00", 4, YAWLSPAR_NOT_ENABLED);
    ticked(16, 0, 0);
    first_sector_holds("\xFF", "\xA5");
}

/* A power-up with code 1, which is the top block: the second erase answers 28, and A5h stays. */
static void done_over_under_protection(void)
{
    one_way("an erase that is cut by a power-up with protection", 1);
    first_sector_half_erased();
    powered_with(1, 0x04, 0x00, 0x00);
    command("\x06", 1, 0);
    command("\xD7\x00\x00\x00", 4, YAWLSPAR_PROTECTED);
    ticked(16, 0, 0);
    first_sector_holds("\xFF", "\xA5");
}

/* The first sectors of both banks are filled. That of bank 1, which 17h chooses, is half erased and cut. */
static void sector_of_bank_1_cut(const char *name)
{
    one_way(name, REF_LARGE);
    first_sector_filled();
    command_with(0x17, 0x01, 0);
    first_sector_half_erased();
    reset();
}

/* A reset clears the bank bit: the same D7h 00h 00h 00h is now an erase in bank 0, and A5h stays in bank 1. */
static void done_over_in_the_other_bank(void)
{
    sector_of_bank_1_cut("an erase in bank 1 that is cut, and its bytes sent again");
    first_sector_erased();
    first_sector_holds("\xFF", "\xFF");
    command_with(0x17, 0x01, 0);
    first_sector_holds("\xFF", "\xA5");

    sector_of_bank_1_cut("the same with the bank bit written again");
    command_with(0x17, 0x01, 0);
    first_sector_erased();
    first_sector_holds("\xFF", "\xFF");
    command_with(0x17, 0x00, 0);
    first_sector_holds("\x3C", "\xA5");
}

/* F0h is programmed at 1000h, in the next sector, while the erase is suspended. The erase that is done over leaves it,
 * where an undisturbed one leaves FFh there. */
static void done_over_after_a_program_within(void)
{
    one_way("an erase with nothing else written", 1);
    first_sector_half_erased();
    command("\x75", 1, 0);
    reset();
    first_sector_erased();
    first_sector_holds("\xFF", "\xFF");
    ends_with(0x1000, "\xFF", 1);

    one_way("the same with a program while it is suspended", 1);
    first_sector_half_erased();
    command("\x75", 1, 0);
    programmed(0x1000, "\xF0", 1);
    reset();
    first_sector_erased();
    first_sector_holds("\xFF", "\xFF");
    ends_with(0x1000, "\xF0", 1);
}

void wrong_laws_of_cut_erases(void)
{
    done_over_without_enable();
    done_over_under_protection();
    done_over_in_the_other_bank();
    done_over_after_a_program_within();
}
