/* Writes an input for bench, or for bench_sizes, that goes through all of something, where generate.c draws by chance:
 * each code at each length in each state, each protection code at the blocks where it ends, each value of a register,
 * each tick of a suspended erase, each border of an erase and of a read.
 *
 *   sweep NUMBER          the input of this number for bench, counted from 0; nothing where there is no more
 *   sweep NUMBER sizes    the same for bench_sizes
 *   sweep NUMBER 512      the same for bench_sizes on 512 blocks
 *
 * It has parts of the reference model by its side, those that the bench runs the input on, and sends them what it
 * writes: a state is set up again where one of them has left it. */
#include "../reference/reference.h"
#include "../traffic/chance.h"
#include "text.h"

extern int strcmp(const char *, const char *);
extern int memcmp(const void *, const void *, unsigned long);
extern void *memcpy(void *, const void *, unsigned long);

#define CHAPTER_MOST 30000u /* bytes of a chapter: an input ends where the next one might not fit */
#define EXTADD 0x80u
#define BANK 0x1000000u

static const uint32_t bench_sizes[] = {1}, old_sizes[] = {1, 4, 8, 16}, large_sizes[] = {REF_LARGE, REF_LARGE};
static const struct form {
    const char *name;
    size_t cut; /* bytes that the bench reads */
    size_t message_most;
    const uint32_t *sizes;
    size_t count;
} forms[] = {
    {"", 65536, 64, bench_sizes, COUNT(bench_sizes)},
    {"sizes", 262144, REF_MOST, old_sizes, COUNT(old_sizes)},
    {"512", 262144, REF_MOST, large_sizes, COUNT(large_sizes)},
};
static const struct form *form;

static bool is_large(void)
{
    return form->sizes[0] == REF_LARGE;
}

/* ---- The parts by its side ---- */

static uint8_t array[REF_LARGE * REF_BLOCK]; /* of all of them: what a part is at does not depend on it */
static uint8_t rows[REF_ROWS], output[REF_MOST];
static struct part parts[4], saved[4];

static void power_up(void)
{
    size_t i;

    for (i = 0; i < form->count; i++)
        ref_power_up(&parts[i], form->sizes[i], 0x11, 0x22, 0x33, 0x44, 0, i == 1 && is_large() ? 0x02 : 0, 0);
}

static void save(void)
{
    memcpy(saved, parts, sizeof parts);
}

static bool changed(void)
{
    return memcmp(saved, parts, sizeof parts) != 0;
}

/* The armed mark is all that a transaction changed, on each part. */
static bool only_disarmed(void)
{
    size_t i;

    for (i = 0; i < form->count; i++) {
        struct part part = parts[i];

        part.armed = true;
        if (parts[i].armed || memcmp(&part, &saved[i], sizeof part) != 0)
            return false;
    }
    return true;
}

static bool any_is_busy(void)
{
    size_t i;

    for (i = 0; i < form->count; i++)
        if ((parts[i].status & 1) != 0)
            return true;
    return false;
}

/* ---- Lines ---- */

static uint64_t number, wanted; /* of the input that is made now, and of the one to write */

static void send(bool wp_high, const uint8_t *bytes, size_t count)
{
    size_t i, first;

    put(wp_high ? 'T' : 'L');
    put(' ');
    for (i = 0; i < count; i++)
        put_pair(bytes[i]);
    put('\n');
    for (i = 0; i < form->count; i++)
        ref_transact(&parts[i], array, (size_t)parts[i].size * REF_BLOCK, rows, sizeof rows, wp_high, bytes, count, output,
                     count, &first);
}

static void wait(uint32_t ticks)
{
    uint32_t worked;
    size_t i;

    put('K');
    put(' ');
    put_number(ticks);
    put('\n');
    for (i = 0; i < form->count; i++)
        ref_tick(&parts[i], array, (size_t)parts[i].size * REF_BLOCK, rows, sizeof rows, ticks, &worked);
}

static uint8_t nibble(char c)
{
    return (uint8_t)(c <= '9' ? c - '0' : c - 'A' + 10);
}

/* The lines that the words stand for. A word in hex is a transaction, with WP# low where an L stands before it; `@` in it
 * is a fourth address byte, where EXTADD asks for one, and `$` is the byte that is given. A word with a + is so many ticks. */
static void play_with(const char *words, uint8_t given)
{
    while (*words != 0) {
        uint8_t bytes[REF_PAGE];
        size_t count = 0;
        uint32_t ticks = 0;
        bool low = *words == 'L', is_wait = *words == '+';

        for (words += low || is_wait; *words != 0 && *words != ' '; words++) {
            if (is_wait) {
                ticks = ticks * 10 + nibble(*words);
            } else if (*words == '$') {
                bytes[count++] = given;
            } else if (*words != '@') {
                bytes[count++] = (uint8_t)(nibble(words[0]) * 16 + nibble(words[1]));
                words++;
            } else if ((parts[0].bank & EXTADD) != 0) {
                bytes[count++] = 0;
            }
        }
        if (is_wait)
            wait(ticks);
        else
            send(!low, bytes, count);
        while (*words == ' ')
            words++;
    }
}

static void play(const char *words)
{
    play_with(words, 0);
}

static void see(void)
{
    play(is_large() ? "0500 4800 8100 1600" : "0500 4800 8100");
}

/* Begins a chapter, in this input or the next one. True where the wanted input is whole. */
static bool chapter(void)
{
    if (length + CHAPTER_MOST > form->cut) {
        if (number == wanted)
            return true;
        number++;
        length = 0;
        power_up();
    }
    play("AB 66 99 06 0100 +1");
    return false;
}

/* ---- Each code at each length in each state ---- */

static const char *const states[] = {
    "", "06", "B9", "06 B9",
    /* busy */
    "06 02@00020055AA +1", "06 D7@001000 +1", "06 52@008000 +1", "06 D8@010000 +1", "06 C7 +1", "06 64001000",
    "06 62001000AABB +1", "06 0140", "06 4200", "06 85E0",
    /* suspended, the erases with WEL 0 and 1 */
    "06 02@00020055AA +1 75", "06 D7@001000 +1 75", "06 52@008000 +1 75", "06 D8@010000 +1 75", "06 D7@001000 +1 B0 06",
    "06 52@008000 +1 75 06", "06 D8@010000 +1 75 06",
    /* a program within */
    "06 D7@001000 +1 75 06 02@00020055AA +1", "06 52@008000 +1 75 06 02@00020055AA +1",
    "06 D8@010000 +1 75 06 02@00020055AA +1",
    /* armed */
    "66", "06 66", "06 02@00020055AA +1 66", "06 D7@001000 +1 75 06 66", "06 D7@001000 +1 75 06 02@00020055AA +1 66",
};

static const uint8_t banks[] = {0x00, 0x01, 0x80, 0x81};

static void enter(const char *state, uint8_t bank)
{
    play("AB 66 99");
    if (is_large())
        play_with("17$", bank);
    play(state);
    save();
}

/* Does a part of 512 blocks, which has all codes, know the code? */
static bool is_known(uint8_t code)
{
    struct part part;
    size_t first;

    ref_power_up(&part, REF_LARGE, 0, 0, 0, 0, 0, 0, 0);
    return ref_transact(&part, array, sizeof array, rows, sizeof rows, true, &code, 1, output, 1, &first) != 20;
}

/* A code of no table is sent with one length, each other with each. */
static void each_code(const char *state, uint8_t bank)
{
    static const uint8_t at_length[] = {0x05, 0x81, 0x9F, 0xC8, 0x06, 0xC5};
    uint8_t message[] = {0x00, 0x00, 0x10, 0x00, 0x01, 0x00, 0x3C, 0xC3, 0x5A};
    uint32_t code;

    enter(state, bank);
    for (code = 0; code < 256; code++) {
        bool known = is_known((uint8_t)code);
        size_t count = known ? 1 : 1 + code % sizeof message, most = known ? sizeof message : count;

        message[0] = (uint8_t)code;
        for (; count <= most; count++) {
            send(true, message, count);
            if (only_disarmed()) {
                play("99 66");
            } else if (changed()) {
                play("99");
                see();
                play("+300 0500");
                enter(state, bank);
            }
        }
        if (known)
            see();
        if (changed()) /* the reads have disarmed it */
            enter(state, bank);
    }
    wait(ref_ticks_most(form->sizes[0]) + 1);
    play("6801000000 6800010000");
    for (code = 0; code < COUNT(at_length); code++)
        play_with("$000000000000000000000000", at_length[code]);
    play("66 05 99 66 8100 99 66 9F 99 66 00 99 66 66 9900 99 66 06 99 66 04 99 66 04 99 66 02@00300055 99 66 75 99");
    play("06 66 02@0030005566 99 66 0500 99");
}

static bool state_chapters(void)
{
    size_t i, bank;

    for (i = 0; i < COUNT(states); i++)
        for (bank = 0; bank < (is_large() ? COUNT(banks) : 1); bank++) {
            if (chapter())
                return true;
            each_code(states[i], banks[bank]);
        }
    return false;
}

/* ---- Addresses ---- */

/* How an address goes out: three bytes, four by EXTADD, four by the code's own. */
enum way { THREE, EXTENDED, FAR, WAYS };
enum { READ, FAST_READ, PROGRAM, SECTOR, HALF, WHOLE, COMMANDS };

static const uint8_t codes[WAYS][COMMANDS] = {
    {0x03, 0x0B, 0x02, 0xD7, 0x52, 0xD8}, {0x03, 0x0B, 0x02, 0xD7, 0x52, 0xD8}, {0x13, 0x0C, 0x12, 0x21, 0x5C, 0xDC}};

static uint32_t ways(void)
{
    return is_large() ? WAYS : 1;
}

/* Sets the bank address register for an address: the bank bit for three bytes, else any value that does. */
static void choose(enum way way, uint32_t address)
{
    uint32_t value = way == THREE ? address / BANK % 2 : way == EXTENDED ? 2 + address % 2 : (address / REF_BLOCK + address) % 4;

    if (is_large())
        play_with("17$", banks[value]);
}

/* A code with its address and so many bytes behind it, as many as may be. */
static void addressed(uint8_t code, size_t address_bytes, uint32_t address, size_t count)
{
    static uint8_t message[REF_MOST];
    size_t used = 1, i;

    message[0] = code;
    for (i = address_bytes; i > 0; i--)
        message[used++] = (uint8_t)(address >> (8 * (i - 1)));
    for (i = 0; i < count && used < form->message_most; i++)
        message[used++] = (uint8_t)(i * 7 + address / 256 + 0x5A); /* at no border FFh, which programs nothing */
    send(true, message, used);
}

static void at(enum way way, uint32_t command, uint32_t address, size_t count)
{
    uint8_t code = codes[way][command];

    if (code == 0xD7 && address % 2 != 0)
        code = 0x20; /* SER has two codes */
    addressed(code, way == THREE ? 3 : 4, address, count);
}

static void programmed(enum way way, uint32_t address)
{
    choose(way, address);
    play("06");
    at(way, PROGRAM, address, 1);
    play("+1");
}

static const uint32_t units[] = {4096, 32768, 65536};

/* Each erase of the unit that holds the address, with a byte on each side of both of its ends. */
static void erases_at(enum way way, uint32_t address)
{
    uint32_t i, side;

    for (i = 0; i < COUNT(units); i++) {
        uint32_t first = address / units[i] * units[i], ends[2] = {first - 1, first + units[i] - 1};

        for (side = 0; side < 4; side++)
            programmed(way, ends[side / 2] + side % 2);
        choose(way, address);
        play("06");
        at(way, SECTOR + i, address, 0);
        play("+2 0500 +300 0500");
        for (side = 0; side < 2; side++) {
            choose(way, ends[side]);
            at(way, READ + side, ends[side], 3);
        }
    }
}

/* Each erase suspended, and a program within at both sides of both of its ends. */
static void programs_beside(enum way way, uint32_t address)
{
    uint32_t i, side;

    for (i = 0; i < COUNT(units); i++) {
        uint32_t first = address / units[i] * units[i], ends[2] = {first - 1, first + units[i] - 1};

        choose(way, address);
        play("06");
        at(way, SECTOR + i, address, 0);
        play("+1 75");
        for (side = 0; side < 4; side++) {
            play("06");
            at(way, PROGRAM, ends[side / 2] + side % 2, 1);
            play("8100 4800 +1 0500 82");
        }
        play("7A +300 0500 82");
    }
}

static bool address_chapters(void)
{
    static const uint32_t borders[] = {0x000000, 0x0000FF, 0x001000, 0x007FFF, 0x008000, 0x00FFFF,  0x010000, 0x03FFFF,
                                       0x040000, 0x07FFFF, 0x080000, 0x0FFFFF, 0xFF0000, 0xFFFFFF, 0x1000000, 0x1FFFFFF};
    uint32_t way, i;

    for (way = 0; way < ways(); way++)
        for (i = 0; i < COUNT(borders) - (is_large() ? 0 : 2); i++) {
            if (chapter())
                return true;
            programmed(way, borders[i]);
            at(way, READ, borders[i], 600);
            at(way, FAST_READ, borders[i], 4);
            at(way, READ, borders[i] ^ 0x80000000u, 4); /* the bits above those of the size, where four bytes have them */
            erases_at(way, borders[i]);
            programs_beside(way, borders[i]);
        }
    return false;
}

/* Programs of pages and rows, of lengths around that of a page; the page or row is read whole. */
static bool program_chapters(void)
{
    static const uint16_t counts[] = {1, 2, 59, 60, 255, 256, 257, 300, 513, 4091, 4092};
    static const uint8_t starts[] = {0x00, 0x03, 0xC8, 0xFF};
    uint32_t way, i, k;

    for (way = 0; way < ways(); way++)
        for (i = 0; i < COUNT(counts); i++) {
            if (chapter())
                return true;
            for (k = 0; k < (counts[i] > 1000 ? 1 : COUNT(starts)); k++) {
                uint32_t page = 0x20000 + (i * COUNT(starts) + k) * REF_PAGE, row = k * 0x1000;

                choose(way, page);
                play("06");
                at(way, PROGRAM, page + starts[k], counts[i]);
                play("+1 0500 +58 0500 +197 0500 +1 0500");
                at(way, READ, page, REF_PAGE);
                play("06");
                addressed(0x64, 3, row, 0);
                play("+1 06");
                addressed(0x62, 3, row + starts[k], counts[i]);
                play("+1 0500 +58 0500 +300 0500");
                addressed(0x68, 3, row + starts[k], 1 + REF_PAGE);
            }
        }
    return false;
}

/* ---- Protection ---- */

/* The error bits are seen after each command, and cleared for each block. */
static void barred_at(enum way way, uint32_t address, uint32_t turn)
{
    uint32_t i;

    choose(way, address);
    play("82 06");
    for (i = 0; i < 4; i++) {
        at(way, PROGRAM + (i + turn) % 4, address, (i + turn) % 4 == 0 ? 1 : 0);
        if (any_is_busy()) {
            play("8100 AB 66 99");
            choose(way, address);
            play("06");
        }
        play("8100");
    }
}

/* Blocks where what a code protects begins or ends. */
static uint32_t block_of(uint32_t code, uint32_t i)
{
    uint32_t many = code == 0 ? 1 : 1u << ((code - 1) % 9);
    const uint32_t blocks[] = {0, many - 1, many, 255, 256, 511 - many, 512 - many, 511};

    return is_large() ? blocks[i] : i;
}

static bool protection_chapters(void)
{
    uint32_t code, way, i;

    for (code = 0; code < 16; code++)
        for (way = 0; way < ways(); way++) {
            if (chapter())
                return true;
            play_with("06 01$ +1 0500", (uint8_t)(code << 2));
            for (i = 0; i < (is_large() ? 8 : form->sizes[form->count - 1]); i++) {
                barred_at(way, block_of(code, i) * REF_BLOCK, i);
                barred_at(way, block_of(code, i) * REF_BLOCK + REF_BLOCK - 1, i + 1);
            }
            for (i = 0; i < 4; i++) {
                play("AB 66 99");
                choose(way, 0);
                play("06 66");
                at(way, PROGRAM + i, 0, i == 0 ? 1 : 0);
                play("99 8100");
            }
            play("AB 66 99 06 C7 8100 60 8100 83E0 02@00000000 D8@000000 8100 0140 8100 66 99");
            play_with("06 85$ 8100 +1 8100 66 99 8100", (uint8_t)(code << 4));
        }
    return false;
}

/* ---- Registers and rows ---- */

static bool register_chapters(void)
{
    static const char *const writes[] = {"06 01$ 0500 +1 0500", "L06 L01$ L0500 +1 0500", "83$ 8100 82 8100", "06 85$ 8100 +1 8100 66 99 8100",
                                         "17$ 1600 C8000000 66 99 1600", "C5$ 1600 B7 1600 C5$ 29 C800 B9 AB 1600"};
    uint32_t i, value;

    for (i = 0; i < COUNT(writes); i++) {
        if (chapter())
            return true;
        for (value = 0; value < 256; value++)
            play_with(writes[i], (uint8_t)value);
    }
    return false;
}

/* Each second byte of a row address, and some first bytes. */
static bool row_chapters(void)
{
    uint32_t bank, value;

    for (bank = 0; bank < (is_large() ? COUNT(banks) : 1); bank++) {
        if (chapter())
            return true;
        if (is_large())
            play_with("17$", banks[bank]);
        for (value = 0; value < 256; value++) {
            play_with("06 6200$FE5AA5 +2 6800$FE000000 6400$77", (uint8_t)value);
            if (any_is_busy())
                play("+1");
            if (value % 15 == 1)
                play_with("62$00005A 64$0000 68$00000000", (uint8_t)value);
        }
    }
    /* locks are for ever: the input ends with them, but for that of the next chapter */
    for (value = 0x10; value < 256; value *= 2) {
        if (chapter())
            return true;
        play_with("06 42$ 4800 +1 4800 06 4200 +1 4800", (uint8_t)(value | 0x0F));
        for (bank = 0; bank < 4; bank++)
            play_with("82 06 6200$0000 8100 +1 82 06 6400$00 8100 +1 6800$000000", (uint8_t)(bank * 0x10));
    }
    return false;
}

/* ---- Each tick of an erase ---- */

/* The byte at the end of each page of the sector at 1000h. */
static void read_pages(void)
{
    uint32_t page;

    for (page = 0x10; page < 0x20; page++)
        play_with("03@00$FF00", (uint8_t)page);
}

/* A SER that is suspended after so many ticks, then with a program within, then after a tick more. */
static bool tick_chapters(void)
{
    uint32_t ticks, page;

    for (ticks = 0; ticks <= 16; ticks++) {
        if (chapter())
            return true;
        for (page = 0x10; page < 0x20; page++)
            play_with("06 02@00$FF00 +1", (uint8_t)page);
        play("06 D7@001234");
        wait(ticks);
        play("0500 75 4800");
        read_pages();
        play("06 02@0020FFF1F2 75 0500 4800 7A +1 75 03@0020FF00 +1 03@0020FF00 7A 0500 +1 75");
        read_pages();
        play("7A +300 0500");
        read_pages();
    }
    return false;
}

/* ---- Arguments ---- */

int main(int argc, char **argv)
{
    static const char usage[] = "usage: sweep NUMBER [sizes | 512]\n", too_long[] = "sweep: a chapter is too long\n";
    size_t i;

    for (i = 0; i < COUNT(forms); i++)
        if (argc == 2 + (i > 0) && (i == 0 || strcmp(argv[2], forms[i].name) == 0))
            form = &forms[i];
    if (form == NULL || !seed_of(argv[1], &wanted))
        return write(2, usage, sizeof usage - 1) < 0 ? 1 : 2;
    power_up();
    if (!(state_chapters() || address_chapters() || program_chapters() || protection_chapters() || register_chapters() ||
          tick_chapters() || row_chapters() || number == wanted))
        return 0;
    if (length > form->cut)
        return write(2, too_long, sizeof too_long - 1) < 0 ? 2 : 1;
    return write_text();
}
