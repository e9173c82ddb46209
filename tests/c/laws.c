/*
 * Runs the laws by which drivers merge and reorder writes, and the laws of an erase that is cut and done over, through
 * the functions of yawlspar.h.
 *
 *   laws               the wrong laws, and each law on random data of the seeds 1 to 320
 *   laws FIRST LAST    each law on random data of the seeds FIRST to LAST alone
 *
 * A law says that two ways lead to the same end. Two parts that are the same go one way each, and then record, array
 * and rows are compared, byte by byte. Where the end of a way is worked out, that is done here, place by place. A wrong
 * law is shown to be wrong by two ways whose ends are worked out by hand. writes.c draws the writes and makes them. The
 * laws of the erase that is cut, which compare array and rows alone, are in restart.c with their wrong laws.
 *
 * It prints one line with the number of runs, of calls and of differences. The first difference ends it: it is told
 * before that line, and the exit status is 1. Bad usage is 2.
 */
#include "restart.h"
#include "writes.h"

extern int printf(const char *format, ...) __attribute__((format(printf, 1, 2)));
extern void *memset(void *, int, unsigned long);

const char *const program_name = "laws";

#define LAST_SEED 320u
#define ROUNDS 8u /* how often a seed runs each law */

/* ---- The laws ---- */

/* What a program has to leave, worked out. Byte k of the data goes to the place start + k, modulo 256. So to a place go
 * the bytes first, first + 256 and so on, and the last of them counts. */
static void work_out_program(const struct side *side, const struct write *program)
{
    uint8_t *page = bytes_of(side, &program->unit);
    const uint8_t *data = program->bytes + program->data;
    uint32_t place, first, count = data_count(program);

    for (place = 0; place < REF_PAGE; place++) {
        first = (place + REF_PAGE - program->start) % REF_PAGE;
        if (first < count)
            page[place] &= data[first + (count - 1 - first) / REF_PAGE * REF_PAGE];
    }
    executed(side, "\x04", 1);
}

static void work_out_erase(const struct side *side, const struct write *erase)
{
    memset(bytes_of(side, &erase->unit), 0xFF, erase->unit.bytes);
    executed(side, "\x04", 1);
}

static void program_leaves(void)
{
    struct unit page = fresh_page();
    struct write program;

    draw_program(&program, &page);
    written(one, &program);
    work_out_program(other, &program);
}

static void either_order(const struct unit *page, const struct unit *another)
{
    struct write first, second;

    draw_program(&first, page);
    draw_program(&second, another);
    written(one, &first);
    written(one, &second);
    written(other, &second);
    written(other, &first);
}

static void either_order_in_a_page(void)
{
    struct unit page = fresh_page();

    either_order(&page, &page);
}

static void either_order_in_two_pages(void)
{
    struct unit page = fresh_page(), another = another_fresh_page(&page);

    either_order(&page, &another);
}

static void program_twice(void)
{
    struct unit page = fresh_page();
    struct write program;

    draw_program(&program, &page);
    written(one, &program);
    written(one, &program);
    written(other, &program);
}

/* After programs of its unit, and elsewhere. */
static void erase_leaves(void)
{
    uint32_t programs = below(4);
    struct write erase, program;
    struct unit page;

    draw_erase(&erase);
    for (; programs > 0; programs--) {
        page = one_in(3) ? fresh_page() : page_in(&erase.unit);
        draw_program(&program, &page);
        written(one, &program);
        written(other, &program);
    }
    written(one, &erase);
    work_out_erase(other, &erase);
}

static void erase_forgets(void)
{
    uint32_t programs = between(1, 3);
    struct write erase, program;
    struct unit page;

    draw_erase(&erase);
    for (; programs > 0; programs--) {
        page = page_in(&erase.unit);
        draw_program(&program, &page);
        written(one, &program);
    }
    written(one, &erase);
    written(other, &erase);
}

/* Half of the time the data does not go past the end of the page. */
static void merged_programs(void)
{
    uint32_t count = between(2, REF_PAGE), split = between(1, count - 1);
    uint32_t start = below(one_in(2) ? REF_PAGE : REF_PAGE - count + 1);
    struct unit page = fresh_page();
    struct write first, second, both;
    uint8_t data[REF_PAGE];

    draw_data(data, count);
    start_program(&first, &page, start);
    add_data(&first, data, split);
    start_program(&second, &page, (start + split) % REF_PAGE);
    add_data(&second, data + split, count - split);
    start_program(&both, &page, start);
    add_data(&both, data, count);
    written(one, &first);
    written(one, &second);
    written(other, &both);
}

static const struct {
    const char *name;
    void (*run)(void);
    void (*compare)(void);
} laws[] = {
    {"what a program leaves, place by place", program_leaves, same_parts},
    {"two programs of a page or row in either order", either_order_in_a_page, same_parts},
    {"programs of two pages or rows in either order", either_order_in_two_pages, same_parts},
    {"a program twice or once", program_twice, same_parts},
    {"what an erase after programs leaves", erase_leaves, same_parts},
    {"an erase after programs of its unit or alone", erase_forgets, same_parts},
    {"two programs merged", merged_programs, same_parts},
    {"an erase that is cut and done over, or undisturbed", cut_erase_done_over, same_stored},
    {"an update that is cut and starts over, or its erase undisturbed", cut_update_starts_over, same_stored},
};

/* ---- The runs ---- */

static void run_law(size_t law)
{
    name_run(laws[law].name);
    make_parts();
    laws[law].run();
    laws[law].compare();
    runs++;
}

static void run_laws(uint64_t seed)
{
    static const uint32_t sizes[] = {1, 4, 1, 8, 1, 4, 1, 16, 1, 4, 1, 8, 1, 4, 1, REF_LARGE};
    struct call call;
    size_t i;

    begin_draws(seed);
    begin_run("the laws", seed, sizes[seed % COUNT(sizes)]);
    for (i = 0; i < ROUNDS * COUNT(laws); i++)
        run_law(i % COUNT(laws));
    call = fitting(TICK);
    same_memory(&call);
}

/* ---- The wrong laws: ways on a blank part of one block ---- */

static void programmed_in_part(uint32_t address, const void *data, size_t count, uint64_t ticks)
{
    program_is(address, data, count, 0);
    ticked(ticks, 0, ticks);
    reset();
}

/* F0h and 0Fh at place 10h. The erase last: FFh. Before the last program: FFh AND 0Fh = 0Fh. */
static void erase_before_the_last(void)
{
    one_way("two programs and an erase", 1);
    programmed(0x0010, "\xF0", 1);
    programmed(0x0010, "\x0F", 1);
    first_sector_erased();
    ends_with(0x0010, "\xFF", 1);

    one_way("a program, an erase and a program", 1);
    programmed(0x0010, "\xF0", 1);
    first_sector_erased();
    programmed(0x0010, "\x0F", 1);
    ends_with(0x0010, "\x0F", 1);
}

/* F0h F0h and 0Fh 0Fh at places 10h and 11h, and a reset after three ticks. The first program is whole then, and the
 * second one has done place 10h. That is F0h AND 0Fh = 00h in either order, but 11h is as the first one left it: F0h or
 * 0Fh. With both whole it is 00h too. */
static void order_with_a_cut(void)
{
    one_way("a program, and another one that is cut", 1);
    programmed(0x0010, "\xF0\xF0", 2);
    programmed_in_part(0x0010, "\x0F\x0F", 2, 1);
    ends_with(0x0010, "\x00\xF0", 2);

    one_way("the same in the other order", 1);
    programmed(0x0010, "\x0F\x0F", 2);
    programmed_in_part(0x0010, "\xF0\xF0", 2, 1);
    ends_with(0x0010, "\x00\x0F", 2);

    one_way("the same with no cut", 1);
    programmed(0x0010, "\xF0\xF0", 2);
    programmed(0x0010, "\x0F\x0F", 2);
    ends_with(0x0010, "\x00\x00", 2);
}

/* 01h 02h at 00FEh, the end of a page, and 03h 04h at 0100h, where the next begins. Merged, 03h and 04h go to 0000h and
 * 0001h, and 0100h and 0101h stay FFh. */
static void merge_over_a_border(void)
{
    one_way("programs of two neighbouring pages", 1);
    programmed(0x00FE, "\x01\x02", 2);
    programmed(0x0100, "\x03\x04", 2);
    ends_with(0x0000, "\xFF\xFF", 2);
    ends_with(0x00FE, "\x01\x02\x03\x04", 4);

    one_way("programs of two neighbouring pages, merged", 1);
    programmed(0x00FE, "\x01\x02\x03\x04", 4);
    ends_with(0x0000, "\x03\x04", 2);
    ends_with(0x00FE, "\x01\x02\xFF\xFF", 4);
}

/* 3Ch 3Ch at 0000h, and then 256 times F0h from 0002h on, which comes round to 0000h and 0001h: 3Ch AND F0h = 30h
 * there, and F0h in the rest of the page. Merged, these are 258 bytes, of which the last 256 count: F0h everywhere. */
static void merge_of_more_than_a_page(void)
{
    uint8_t data[2 + REF_PAGE];

    memset(data, 0x3C, 2);
    memset(data + 2, 0xF0, REF_PAGE);
    one_way("programs of 2 and of 256 bytes", 1);
    programmed(0x0000, data, 2);
    programmed(0x0002, data + 2, REF_PAGE);
    ends_with(0x0000, "\x30\x30\xF0", 3);

    one_way("programs of 2 and of 256 bytes, merged", 1);
    programmed(0x0000, data, sizeof data);
    ends_with(0x0000, "\xF0\xF0\xF0", 3);
}

/* F0h and 0Fh at place 10h: F0h AND 0Fh = 00h. If code 1, which is the top block, is written to the status register
 * between the two, the second one answers 28, and F0h stays. */
static void protected_between(void)
{
    one_way("two programs", 1);
    programmed(0x0010, "\xF0", 1);
    programmed(0x0010, "\x0F", 1);
    ends_with(0x0010, "\x00", 1);

    one_way("two programs, with protection between them", 1);
    programmed(0x0010, "\xF0", 1);
    command("\x06", 1, 0);
    command_with(0x01, 0x04, 0);
    ticked(1, 0, 1);
    program_is(0x0010, "\x0F", 1, YAWLSPAR_PROTECTED);
    ticked(1, 0, 0);
    ends_with(0x0010, "\xF0", 1);
}

static void wrong_laws(void)
{
    erase_before_the_last();
    order_with_a_cut();
    merge_over_a_border();
    merge_of_more_than_a_page();
    protected_between();
    wrong_laws_of_cut_erases();
}

int main(int argc, char **argv)
{
    if (!run_seeds(argc, argv, wrong_laws, run_laws, LAST_SEED))
        return 2;
    printf("laws: %llu runs, %llu calls, 0 differences\n", (unsigned long long)runs, (unsigned long long)calls);
    return 0;
}
