/*
 * Compares the five functions of yawlspar.h that are on numbers alone with their rules, which are
 * written out here in C. Those of the protection question are also compared with the block table,
 * which is worked out by hand, with the reference model, and with one another. And the archive's
 * version is the header's, the header's macros take a result apart, and a map has a bit for each page.
 * Wear has a record for each sector.
 *
 * It prints the first differences, if there are any, and then one line with the number of
 * comparisons and of differences. The exit status is 0 if there is no difference, and else 1.
 */
#include <stddef.h>
#include <stdint.h>

#include "../reference/reference.h"
#include "yawlspar.h"

extern int printf(const char *format, ...) __attribute__((format(printf, 1, 2)));

#define BLOCK UINT64_C(65536)
#define TWO_TO(n) (UINT64_C(1) << (n))
#define TOP UINT64_MAX
#define COUNT(list) (sizeof(list) / sizeof((list)[0]))

/* ---- The rules. */

#define LARGE UINT64_C(512)

static int known_size(uint64_t blocks)
{
    return blocks == 1 || blocks == 4 || blocks == 8 || blocks == 16 || blocks == LARGE;
}

/* On 512 blocks bit 4 of the code is TBS. */
static uint64_t number_rule(uint64_t code, uint64_t blocks)
{
    if (!known_size(blocks))
        return 1;
    if (code > (blocks == LARGE ? 31 : 15))
        return 5;
    return 0;
}

static uint64_t lesser(uint64_t a, uint64_t b)
{
    return a < b ? a : b;
}

/* 1, 2, 4 up to 256 blocks by the codes 1 to 9, at the top or with TBS at the bottom; all from code 10 on. */
static uint64_t large_rule(uint64_t code, uint64_t block)
{
    uint64_t bp = code % 16;
    if (bp == 0 || bp >= 10)
        return bp != 0;
    return code < 16 ? block >= LARGE - TWO_TO(bp - 1) : block < TWO_TO(bp - 1);
}

static uint64_t protected_rule(uint64_t code, uint64_t blocks, uint64_t address)
{
    if (number_rule(code, blocks) != 0)
        return 0;
    uint64_t block = address % (blocks * BLOCK) / BLOCK;
    if (blocks == LARGE)
        return large_rule(code, block);
    if (code == 0 || code == 15)
        return 0;
    if (code <= 7)
        return block >= blocks - lesser(blocks, TWO_TO(code - 1));
    return block < lesser(blocks, TWO_TO(14 - code));
}

/* The first protected block, found by asking of each block in turn. */
static uint64_t first_rule(uint64_t code, uint64_t blocks)
{
    if (number_rule(code, blocks) != 0)
        return 0;
    for (uint64_t block = 0; block < blocks; block++)
        if (protected_rule(code, blocks, block * BLOCK))
            return block;
    return 0;
}

/* The protected blocks, counted one by one. */
static uint64_t count_rule(uint64_t code, uint64_t blocks)
{
    uint64_t count = 0;
    if (number_rule(code, blocks) != 0)
        return 0;
    for (uint64_t block = 0; block < blocks; block++)
        count += protected_rule(code, blocks, block * BLOCK);
    return count;
}

static uint64_t place_rule(uint64_t start, uint64_t index)
{
    if (start < 256 && index < 4092)
        return (start + index) % 256;
    return 256;
}

/* ---- The calls. Each sets all 64 bits of the result register to one and then jumps to the
   function, so that a function which sets only a part of its result is found. */

typedef uint64_t of_three(uint64_t, uint64_t, uint64_t);
typedef uint64_t of_two(uint64_t, uint64_t);

uint64_t call_three(uint64_t a, uint64_t b, uint64_t c, of_three *function);
uint64_t call_two(uint64_t a, uint64_t b, of_two *function);

__asm__(".text\n"
        "call_three:\n"
        "    movq $-1, %rax\n"
        "    jmp *%rcx\n"
        "call_two:\n"
        "    movq $-1, %rax\n"
        "    jmp *%rdx\n");

/* ---- The comparisons. */

static uint64_t comparisons, differences;

static int differ(uint64_t got, uint64_t wanted)
{
    comparisons++;
    if (got == wanted)
        return 0;
    differences++;
    return differences <= 10;
}

static void show_three(const char *name, uint64_t code, uint64_t blocks, uint64_t address, uint64_t got,
                       uint64_t wanted)
{
    printf("%s(code %llu, blocks %llu, address 0x%llX): got %llu, wanted %llu\n", name,
           (unsigned long long)code, (unsigned long long)blocks, (unsigned long long)address,
           (unsigned long long)got, (unsigned long long)wanted);
}

static void number_is(uint64_t code, uint64_t blocks, uint64_t address, uint64_t wanted)
{
    uint64_t got = call_three(code, blocks, address, yawlspar_protection_number);
    if (differ(got, wanted))
        show_three("yawlspar_protection_number", code, blocks, address, got, wanted);
}

static void protected_is(uint64_t code, uint64_t blocks, uint64_t address, uint64_t wanted)
{
    uint64_t got = call_three(code, blocks, address, yawlspar_protected);
    if (differ(got, wanted))
        show_three("yawlspar_protected", code, blocks, address, got, wanted);
}

static void show_two(const char *name, uint64_t code, uint64_t blocks, uint64_t got, uint64_t wanted)
{
    printf("%s(code %llu, blocks %llu): got %llu, wanted %llu\n", name, (unsigned long long)code,
           (unsigned long long)blocks, (unsigned long long)got, (unsigned long long)wanted);
}

static void first_is(uint64_t code, uint64_t blocks, uint64_t wanted)
{
    uint64_t got = call_two(code, blocks, yawlspar_protected_first);
    if (differ(got, wanted))
        show_two("yawlspar_protected_first", code, blocks, got, wanted);
}

static void count_is(uint64_t code, uint64_t blocks, uint64_t wanted)
{
    uint64_t got = call_two(code, blocks, yawlspar_protected_count);
    if (differ(got, wanted))
        show_two("yawlspar_protected_count", code, blocks, got, wanted);
}

static void place_is(uint64_t start, uint64_t index, uint64_t wanted)
{
    uint64_t got = call_two(start, index, yawlspar_page_place);
    if (differ(got, wanted))
        printf("yawlspar_page_place(start %llu, index %llu): got %llu, wanted %llu\n",
               (unsigned long long)start, (unsigned long long)index, (unsigned long long)got,
               (unsigned long long)wanted);
}

/* ---- Fixed cases. They do not use the rules above. */

static const struct {
    uint64_t code, blocks, address, wanted;
} fixed[] = {
    {4, 16, 0x07FFFF, 0},  {4, 16, 0x080000, 1},  {11, 16, 0x07FFFF, 1}, {11, 16, 0x080000, 0},
    {12, 4, 0x000000, 1},  {12, 4, 0x00FFFF, 1},  {12, 4, 0x010000, 1},  {12, 4, 0x01FFFF, 1},
    {12, 4, 0x020000, 1},  {12, 4, 0x02FFFF, 1},  {12, 4, 0x030000, 1},  {12, 4, 0x03FFFF, 1},
};

/* The block table: the first protected block and the count, for each code on each of these sizes. */
static const uint64_t table_blocks[] = {16, 8, 4, 1};
static const struct {
    uint64_t first, count;
} table[16][COUNT(table_blocks)] = {
    /*  0 */ {{0, 0}, {0, 0}, {0, 0}, {0, 0}},
    /*  1 */ {{15, 1}, {7, 1}, {3, 1}, {0, 1}},
    /*  2 */ {{14, 2}, {6, 2}, {2, 2}, {0, 1}},
    /*  3 */ {{12, 4}, {4, 4}, {0, 4}, {0, 1}},
    /*  4 */ {{8, 8}, {0, 8}, {0, 4}, {0, 1}},
    /*  5 */ {{0, 16}, {0, 8}, {0, 4}, {0, 1}},
    /*  6 */ {{0, 16}, {0, 8}, {0, 4}, {0, 1}},
    /*  7 */ {{0, 16}, {0, 8}, {0, 4}, {0, 1}},
    /*  8 */ {{0, 16}, {0, 8}, {0, 4}, {0, 1}},
    /*  9 */ {{0, 16}, {0, 8}, {0, 4}, {0, 1}},
    /* 10 */ {{0, 16}, {0, 8}, {0, 4}, {0, 1}},
    /* 11 */ {{0, 8}, {0, 8}, {0, 4}, {0, 1}},
    /* 12 */ {{0, 4}, {0, 4}, {0, 4}, {0, 1}},
    /* 13 */ {{0, 2}, {0, 2}, {0, 2}, {0, 1}},
    /* 14 */ {{0, 1}, {0, 1}, {0, 1}, {0, 1}},
    /* 15 */ {{0, 0}, {0, 0}, {0, 0}, {0, 0}},
};

/* The block table of 512 blocks, with TBS 0 and then, 16 added to the code, with TBS 1. */
static const struct {
    uint64_t first, count;
} large_table[32] = {
    /*  0 */ {0, 0},
    /*  1 */ {511, 1},
    /*  2 */ {510, 2},
    /*  3 */ {508, 4},
    /*  4 */ {504, 8},
    /*  5 */ {496, 16},
    /*  6 */ {480, 32},
    /*  7 */ {448, 64},
    /*  8 */ {384, 128},
    /*  9 */ {256, 256},
    /* 10 */ {0, 512},
    /* 11 */ {0, 512},
    /* 12 */ {0, 512},
    /* 13 */ {0, 512},
    /* 14 */ {0, 512},
    /* 15 */ {0, 512},
    /* 16 */ {0, 0},
    /* 17 */ {0, 1},
    /* 18 */ {0, 2},
    /* 19 */ {0, 4},
    /* 20 */ {0, 8},
    /* 21 */ {0, 16},
    /* 22 */ {0, 32},
    /* 23 */ {0, 64},
    /* 24 */ {0, 128},
    /* 25 */ {0, 256},
    /* 26 */ {0, 512},
    /* 27 */ {0, 512},
    /* 28 */ {0, 512},
    /* 29 */ {0, 512},
    /* 30 */ {0, 512},
    /* 31 */ {0, 512},
};

/* A bad size, a bad code, and both. Many of them would be good if they were cut to 4, 8 or 32 bits. */
static const struct {
    uint64_t code, blocks, number;
} refused[] = {
    {1, 0, 1},   {1, 2, 1},    {14, 17, 1},           {1, 256 + 4, 1},  {14, TWO_TO(32) + 16, 1},
    {17, 16, 5}, {30, 1, 5},   {256 + 1, 4, 5},       {256 + 1, 1, 5},  {TWO_TO(32) + 8, 8, 5},
    {16, 2, 1},  {17, 260, 1}, {256 + 1, 256 + 1, 1}, {TOP, TOP, 1},
    {1, 511, 1}, {1, 513, 1},  {26, 256, 1},          {26, 1024, 1},    {1, 512 + 65536, 1},
    {9, 528, 1}, {31, 511, 1}, {26, TWO_TO(32) + 512, 1}, {32, 513, 1}, {26, TWO_TO(63) + 512, 1},
    {16, 16, 5}, {31, 16, 5},  {17, 8, 5},            {26, 4, 5},       {26, 1, 5},
    {32, 512, 5}, {33, 512, 5}, {63, 512, 5},         {256 + 1, 512, 5}, {TWO_TO(32) + 31, 512, 5},
    {TOP, 512, 5},
};

static void fixed_cases(void)
{
    for (uint64_t i = 0; i < COUNT(fixed); i++) {
        number_is(fixed[i].code, fixed[i].blocks, fixed[i].address, 0);
        protected_is(fixed[i].code, fixed[i].blocks, fixed[i].address, fixed[i].wanted);
    }
    for (uint64_t code = 0; code < 16; code++)
        for (uint64_t i = 0; i < COUNT(table_blocks); i++) {
            number_is(code, table_blocks[i], 0, 0);
            first_is(code, table_blocks[i], table[code][i].first);
            count_is(code, table_blocks[i], table[code][i].count);
        }
    for (uint64_t code = 0; code < COUNT(large_table); code++) {
        number_is(code, LARGE, 0, 0);
        first_is(code, LARGE, large_table[code].first);
        count_is(code, LARGE, large_table[code].count);
    }
    for (uint64_t i = 0; i < COUNT(refused); i++) {
        number_is(refused[i].code, refused[i].blocks, 0, refused[i].number);
        protected_is(refused[i].code, refused[i].blocks, 0, 0);
        first_is(refused[i].code, refused[i].blocks, 0);
        count_is(refused[i].code, refused[i].blocks, 0);
    }
}

/* ---- Protection. */

/* The numbers 0..17 are tried as codes and as sizes, each as it is and with each of these added,
   which an argument cut to 8, 16 or 32 bits, or to 63, would lose. Then come some others. */
static const uint64_t added[] = {0, TWO_TO(8), TWO_TO(16), TWO_TO(32), TWO_TO(63)};
static const uint64_t others[] = {32, 64, 255, 512, 65535, TWO_TO(32) - 1, TWO_TO(48), TOP - 1, TOP};

#define ARGUMENTS (18 * COUNT(added) + COUNT(others))

static uint64_t argument(uint64_t i)
{
    if (i < 18 * COUNT(added))
        return added[i / 18] + i % 18;
    return others[i - 18 * COUNT(added)];
}

/* From each of these addresses, 34 blocks are tried: they are more than twice the greatest size.
   The last block of the last 34 ends at the last address of 64 bits. */
static const uint64_t bases[] = {
    0,
    TWO_TO(24) - 17 * BLOCK,
    TWO_TO(32) - 17 * BLOCK,
    TWO_TO(48) - 17 * BLOCK,
    TWO_TO(63) - 17 * BLOCK,
    TOP - 34 * BLOCK + 1,
};
static const uint64_t in_block[] = {0, 1, BLOCK / 2, BLOCK - 1};

static void protection(void)
{
    for (uint64_t i = 0; i < ARGUMENTS; i++)
        for (uint64_t j = 0; j < ARGUMENTS; j++)
            for (uint64_t base = 0; base < COUNT(bases); base++)
                for (uint64_t block = 0; block < 34; block++)
                    for (uint64_t byte = 0; byte < COUNT(in_block); byte++) {
                        uint64_t code = argument(i), blocks = argument(j);
                        uint64_t address = bases[base] + block * BLOCK + in_block[byte];
                        number_is(code, blocks, address, number_rule(code, blocks));
                        protected_is(code, blocks, address, protected_rule(code, blocks, address));
                    }
}

/* ---- First and count. They take no address: each code and size is tried once. */

/* By the rules, and by the reference model. */
static void first_and_count(uint64_t code, uint64_t blocks)
{
    uint64_t first, count;
    first_is(code, blocks, first_rule(code, blocks));
    count_is(code, blocks, count_rule(code, blocks));
    number_is(code, blocks, 0, (uint64_t)ref_protection(code, blocks, &first, &count));
    first_is(code, blocks, first);
    count_is(code, blocks, count);
}

/* The laws that callers rely on. They are checked on what the functions answer, without the rules. */

static void law(const char *text, int holds, uint64_t code, uint64_t blocks, uint64_t first, uint64_t count)
{
    if (differ(holds != 0, 1))
        printf("code %llu, blocks %llu, first %llu, count %llu: it is not so that %s\n",
               (unsigned long long)code, (unsigned long long)blocks, (unsigned long long)first,
               (unsigned long long)count, text);
}

static void law_of_address(uint64_t code, uint64_t blocks, uint64_t address, uint64_t wanted)
{
    uint64_t got = call_three(code, blocks, address, yawlspar_protected);
    if (differ(got, wanted))
        show_three("by first and count, yawlspar_protected", code, blocks, address, got, wanted);
}

/* A block is tried in the part itself and at so many times the size beyond it, at last among the last
   addresses of 64 bits. It is protected exactly where it is one of the count from the first. */
static const uint64_t times[] = {0, 1, TWO_TO(31), TOP};

static void law_of_block(uint64_t code, uint64_t blocks, uint64_t block, uint64_t first, uint64_t count)
{
    uint64_t wanted = first <= block && block - first < count;
    for (uint64_t i = 0; i < COUNT(times); i++) {
        uint64_t start = (times[i] * blocks + block) * BLOCK;
        law_of_address(code, blocks, start, wanted);
        law_of_address(code, blocks, start + BLOCK - 1, wanted);
    }
}

/* The first and the last byte of each of 512 blocks, in the part and beyond it, by the block table. */
static void large_blocks(void)
{
    static const uint64_t beyond[] = {0, 1, 127, TWO_TO(39) - 1};
    for (uint64_t code = 0; code < COUNT(large_table); code++)
        for (uint64_t block = 0; block < LARGE; block++)
            for (uint64_t i = 0; i < COUNT(beyond); i++) {
                uint64_t start = (beyond[i] * LARGE + block) * BLOCK;
                uint64_t wanted = block >= large_table[code].first &&
                                  block < large_table[code].first + large_table[code].count;
                protected_is(code, LARGE, start, wanted);
                protected_is(code, LARGE, start + BLOCK - 1, wanted);
            }
}

/* Of other sizes above 16, which are always refused, the first 16 blocks are tried. */
static void laws(uint64_t code, uint64_t blocks)
{
    uint64_t number = call_three(code, blocks, 0, yawlspar_protection_number);
    uint64_t first = call_two(code, blocks, yawlspar_protected_first);
    uint64_t count = call_two(code, blocks, yawlspar_protected_count);
    if (number != 0) {
        law("both are 0 when refused", first == 0 && count == 0, code, blocks, first, count);
    } else {
        law("first + count is at most the size", first <= blocks && count <= blocks - first, code, blocks,
            first, count);
        law("first is 0 where count is", first == 0 || count != 0, code, blocks, first, count);
    }
    for (uint64_t block = 0; block < (blocks == LARGE ? LARGE : lesser(blocks, 16)); block++)
        law_of_block(code, blocks, block, first, count);
}

/* The codes that are 0 to 15 with a bit more, which is TBS on 512 blocks: on each size, and on those beside 512. */
static void codes_with_another_bit(void)
{
    static const uint64_t sizes[] = {1, 4, 8, 16, 256, 511, LARGE, 513, 1024, TWO_TO(32) + LARGE};
    for (uint64_t code = 0; code < 70; code++)
        for (uint64_t i = 0; i < COUNT(sizes); i++)
            for (uint64_t j = 0; j < COUNT(added); j++) {
                first_and_count(code + added[j], sizes[i]);
                laws(code + added[j], sizes[i]);
            }
}

static void protected_blocks(void)
{
    for (uint64_t i = 0; i < ARGUMENTS; i++)
        for (uint64_t j = 0; j < ARGUMENTS; j++) {
            first_and_count(argument(i), argument(j));
            laws(argument(i), argument(j));
        }
}

/* ---- Places in a page. */

/* Great starts and indexes: around each of these numbers, from 300 below it to 300 above it.
   Around 2^64, which is 0 here, that is the last 300 numbers and the first 301. */
static const uint64_t around[] = {TWO_TO(16), TWO_TO(32), TWO_TO(32) + 4092, TWO_TO(63), 0};

#define GREAT (601 * COUNT(around))

static uint64_t great(uint64_t i)
{
    return around[i / 601] + i % 601 - 300;
}

static void place(uint64_t start, uint64_t index)
{
    place_is(start, index, place_rule(start, index));
}

static void places(void)
{
    for (uint64_t start = 0; start <= 300; start++)
        for (uint64_t index = 0; index <= 4200; index++)
            place(start, index);
    for (uint64_t i = 0; i < GREAT; i++) {
        for (uint64_t start = 0; start <= 300; start++)
            place(start, great(i));
        for (uint64_t index = 0; index <= 4200; index++)
            place(great(i), index);
        for (uint64_t j = 0; j < GREAT; j += 7)
            place(great(i), great(j));
    }
}

/* ---- The version. */

static void version(void)
{
    comparisons++;
    if (YAWLSPAR_MATCHES())
        return;
    differences++;
    printf("the archive is of version %llu, the header of %llu\n", (unsigned long long)yawlspar_version(),
           (unsigned long long)YAWLSPAR_VERSION);
}

/* ---- Results. */

static void part_is(const char *macro, uint64_t result, uint64_t got, uint64_t wanted)
{
    if (differ(got, wanted))
        printf("%s(0x%llX): got %llu, wanted %llu\n", macro, (unsigned long long)result, (unsigned long long)got,
               (unsigned long long)wanted);
}

/* The number has 8 bits. What is above it is one number, or in a check a verdict of 8 bits and a number of 48. */
static void results(void)
{
    static const uint64_t numbers[] = {0, 1, 7, 28, 35, 36, 37, 38, 255}, verdicts[] = {0, 1, 2, 255};
    static const uint64_t wheres[] = {0, 1, 255, 256, 65535, 65536, 33554431, TWO_TO(32), TWO_TO(48) - 1};
    for (uint64_t i = 0; i < COUNT(numbers); i++)
        for (uint64_t j = 0; j < COUNT(verdicts); j++)
            for (uint64_t k = 0; k < COUNT(wheres); k++) {
                uint64_t above = verdicts[j] + 256 * wheres[k], result = numbers[i] + 256 * above;
                part_is("YAWLSPAR_NUMBER", result, YAWLSPAR_NUMBER(result), numbers[i]);
                part_is("YAWLSPAR_PLACE", result, YAWLSPAR_PLACE(result), above);
                part_is("YAWLSPAR_TICKS", result, YAWLSPAR_TICKS(result), above);
                part_is("YAWLSPAR_STEP", result, YAWLSPAR_STEP(result), above);
                part_is("YAWLSPAR_PAGE", result, YAWLSPAR_PAGE(result), above);
                part_is("YAWLSPAR_LENGTH", result, YAWLSPAR_LENGTH(result), above);
                part_is("YAWLSPAR_VERDICT", result, YAWLSPAR_VERDICT(result), verdicts[j]);
                part_is("YAWLSPAR_WHERE", result, YAWLSPAR_WHERE(result), wheres[k]);
            }
    part_is("YAWLSPAR_VERDICT", 256, YAWLSPAR_VERDICT(UINT64_C(256)), YAWLSPAR_AT_STEP);
    part_is("YAWLSPAR_VERDICT", 512, YAWLSPAR_VERDICT(UINT64_C(512)), YAWLSPAR_AT_ADDRESS);
    part_is("YAWLSPAR_VERDICT", 0, YAWLSPAR_VERDICT(UINT64_C(0)), YAWLSPAR_YES);
}

/* One bit for each page of 256 bytes. */
static void lengths_of_maps(void)
{
    static const uint64_t sizes[] = {1, 4, 8, 16, LARGE}, wanted[] = {32, 128, 256, 512, 16384};
    for (uint64_t i = 0; i < COUNT(sizes); i++)
        part_is("YAWLSPAR_MAP_BYTES", sizes[i], YAWLSPAR_MAP_BYTES(sizes[i]), wanted[i]);
}

/* One record of eight bytes for each sector of 4,096 bytes. A line of its text has at most 32 bytes: a sector's number of
 * four digits, two counts of ten, three spaces, `full` and LF. */
static void lengths_of_wear(void)
{
    static const uint64_t sizes[] = {1, 4, 8, 16, LARGE}, sectors[] = {16, 64, 128, 256, 8192},
                          bytes[] = {576, 2112, 4160, 8256, 262208};
    part_is("sizeof(yawlspar_wear)", 0, sizeof(yawlspar_wear), 8);
    part_is("offsetof(yawlspar_wear, programs)", 0, offsetof(yawlspar_wear, programs), 4);
    for (uint64_t i = 0; i < COUNT(sizes); i++) {
        part_is("YAWLSPAR_SECTORS", sizes[i], YAWLSPAR_SECTORS(sizes[i]), sectors[i]);
        part_is("YAWLSPAR_WEAR_TEXT_BYTES", sizes[i], YAWLSPAR_WEAR_TEXT_BYTES(sizes[i]), bytes[i]);
    }
    part_is("YAWLSPAR_BAD_WEAR", 0, YAWLSPAR_BAD_WEAR, 35);
}

int main(void)
{
    version();
    results();
    lengths_of_maps();
    lengths_of_wear();
    fixed_cases();
    protection();
    protected_blocks();
    large_blocks();
    codes_with_another_bit();
    places();
    printf("numbers: %llu comparisons, %llu differences\n", (unsigned long long)comparisons,
           (unsigned long long)differences);
    return differences == 0 ? 0 : 1;
}
