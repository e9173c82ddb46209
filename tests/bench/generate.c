/* Writes one made-up input for bench, or for bench_sizes, to standard output.
 *
 *   generate SEED          an input for bench, of 65,536 bytes or some more
 *   generate SEED sizes    an input for bench_sizes, of some 60,000 bytes; each sixth runs past 262,144
 *   generate SEED 512      the same for bench_sizes on 512 blocks
 *
 * SEED is a decimal number of up to 18 digits. The same arguments give the same bytes.
 *
 * An input is made-up traffic (tests/traffic/), a line for each step, with strange lines between them. */
#include "../traffic/traffic.h"
#include "text.h"

extern int strcmp(const char *, const char *);

struct form {
    size_t cut; /* bytes that the bench reads */
    struct limits limits;
};

static const struct form for_bench = {65536, {.message_most = 64, .long_one_in = 16, .blocks = 1}};
static const struct form for_sizes = {262144, {.message_most = TRAFFIC_MOST, .long_one_in = 100, .blocks = 16}};
static const struct form for_large = {262144, {.message_most = TRAFFIC_MOST, .long_one_in = 100, .blocks = 512}};
static const struct form *form;

/* ---- Text ---- */

static void put_text(const char *words)
{
    while (*words != 0) {
        put((uint8_t)*words);
        words++;
    }
}

static void put_pairs(size_t count)
{
    for (; count > 0; count--)
        put_pair(any_byte());
}

/* ---- Lines of the traffic ---- */

void traffic_send(bool wp_high, const uint8_t *bytes, size_t count)
{
    put_text(wp_high ? "T " : "L ");
    for (; count > 0; count--) {
        put_pair(*bytes);
        bytes++;
    }
    put('\n');
}

void traffic_wait(uint32_t ticks)
{
    put_text(one_in(16) && ticks < 1000 ? "K 0" : "K ");
    put_number(ticks);
    put('\n');
}

/* ---- Malformed lines ---- */

/* More pairs than a line may have; for bench_sizes that is a long line, so mostly an odd digit instead. */
static void too_many_pairs(void)
{
    put_text(one_in(2) ? "T " : "L ");
    if (form == &for_bench || one_in(20)) {
        put_pairs(form->limits.message_most + between(1, 3));
    } else {
        put_pairs(between(1, 3));
        put('F');
    }
}

/* Any bytes but LF. */
static void soup(uint32_t count, uint8_t least)
{
    for (; count > 0; count--) {
        uint8_t byte = (uint8_t)between(least, 255);

        put(byte == '\n' ? '\r' : byte);
    }
}

/* A good line with one byte of it put over by another. */
static void spoilt(void)
{
    static const uint8_t bad[] = {' ', '\t', '\r', 0x00, 'a', 'f', 'g', 'G', '/', ':', '@',
                                  '`', '-', '+', '.', 0x0B, 0x0C, 0x7F, 0x80, 0xA0, 0xFF};
    size_t from = length;

    put_text(one_in(2) ? "T 0300" : "K 04096");
    text[from + below((uint32_t)(length - from))] = pick_byte(bad, COUNT(bad));
}

/* Where a K line may have six digits, the two of six are good. */
static const char *const malformed[] = {
    "", " ", "T", "T ", "L", "L ", "K", "K ", "T 0", "T 050", "T 05 ", "T 05\r", "T 05\t", " T 05",
    "T  05", "T\t05", "T05", "T 05 00", "T 0a", "T aB", "t 05", "l 05", "k 1", "T 0x05", "TT 05",
    "K 123456", "K 000001", "K 1234567", "K 0000001", "K -1", "K +1", "K 1A", "K A", "K 1 ", "K 1\r", "K  1",
    "K1", "K 1 1", "05", "1", "?", "\r", "\t", "X 05", "T-05", "K 1.5", "T 5", "T 050g", "T 06,", "#", "T: 06"};

static void malformed_line(void)
{
    switch (below(10)) {
    case 0:
        too_many_pairs();
        break;
    case 1:
        soup(between(1, 12), 0x80);
        break;
    case 2:
        soup(one_in(10) ? between(100, 400) : between(1, 20), 0x00);
        break;
    case 3:
    case 4:
        spoilt();
        break;
    default:
        put_text(malformed[below(COUNT(malformed))]);
        break;
    }
    put('\n');
}

/* ---- Strange lines ---- */

static uint32_t too_many_ticks(void)
{
    uint32_t least = traffic_ticks_most() + 1;

    return one_in(2) ? least : between(least, form == &for_large ? 999999 : 99999);
}

void traffic_strange(void)
{
    switch (below(10)) {
    case 0:
        traffic_wait(one_in(4) ? too_many_ticks() : below(21));
        break;
    case 1:
    case 2:
        put_text("T 0500\n");
        break;
    case 3:
        put_text("L 4800\n");
        break;
    case 4:
        put_text("L 8100\n");
        break;
    case 5:
        put_text("T ");
        put_pair(any_byte());
        put('\n');
        break;
    default:
        malformed_line();
        break;
    }
}

/* ---- The input ---- */

/* Which rows this input locks, and from which byte of it on. */
static uint8_t locks;
static size_t locks_from;

static void chapters_until(size_t end)
{
    while (length < end) {
        uint32_t left = between(5, 60);

        begin_chapter();
        for (; left > 0 && length < end; left--) {
            if (length >= locks_from)
                allow_locks(locks);
            play_scene();
        }
    }
}

/* Brings the text to exactly `end` bytes by good lines, the last one of them a T line of up to 64 pairs
 * with its LF. What stands there already is cut back as needed. */
static void end_line_at(size_t end)
{
    size_t pairs;

    length = end - 300;
    put('\n');
    while (end - length > 120)
        put_text("K 1\n");
    if ((end - length) % 2 == 0)
        put_text("K 02\n");
    put_text("T 05");
    for (pairs = (end - length - 1) / 2; pairs > 0; pairs--)
        put_pair(0x00);
    put('\n');
}

/* How an input ends is chosen by its seed. */
static void write_input(uint64_t seed, size_t end)
{
    chapters_until(end + 400);
    switch (seed % 8) {
    case 0: /* the last line read is cut, and the input ends there */
    case 1:
        length = end;
        break;
    case 2: /* the last line read is cut, and the input goes on */
    case 3:
        chapters_until(end + between(1, 3000));
        break;
    case 4: /* the last byte read is a LF, and the input ends there */
        end_line_at(end);
        break;
    case 5: /* the last byte read is a LF, and the input goes on */
        end_line_at(end);
        chapters_until(end + 1000);
        break;
    case 6: /* the first byte not read is a LF */
        end_line_at(end + 1);
        chapters_until(end + 1000);
        break;
    default: /* the last byte read begins a line */
        end_line_at(end - 1);
        chapters_until(end + 1000);
        break;
    }
}

/* An input for bench_sizes mostly ends before the cut; its last line is cut, or whole. */
static void write_sizes_input(uint64_t seed)
{
    if (seed % 6 == 0) {
        write_input(seed / 6, form->cut);
        return;
    }
    chapters_until(between(55000, 65000));
    if (seed % 6 == 1)
        length -= between(1, 5);
}

/* ---- Arguments and output ---- */

static void generate(uint64_t seed)
{
    begin_traffic(seed, &form->limits);
    locks = one_in(3) ? 0 : any_byte();
    locks_from = between(10000, 50000);
    if (form == &for_bench)
        write_input(seed, form->cut);
    else
        write_sizes_input(seed);
}

int main(int argc, char **argv)
{
    static const char usage[] = "usage: generate SEED [sizes | 512], SEED a decimal number of up to 18 digits\n";
    uint64_t seed;

    if (argc == 2)
        form = &for_bench;
    else if (argc == 3 && strcmp(argv[2], "sizes") == 0)
        form = &for_sizes;
    else if (argc == 3 && strcmp(argv[2], "512") == 0)
        form = &for_large;
    if (form == NULL || !seed_of(argv[1], &seed))
        return write(2, usage, sizeof usage - 1) < 0 ? 1 : 2;
    generate(seed);
    return write_text();
}
