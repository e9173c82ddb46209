/* The right kind of flashing script: see right.h. */
#include "right.h"

#include "../traffic/draws.h"

extern int memcmp(const void *, const void *, unsigned long);
extern void *memcpy(void *, const void *, unsigned long);
extern void *memset(void *, int, unsigned long);

#define SECTORS_MOST (REF_LARGE * REF_BLOCK / SECTOR)
#define BANK 0x1000000u
#define EXTADD 0x80u
#define BANK_BIT 0x01u
#define ERASE_TICKS 16u

static uint32_t size_of(const struct part *at)
{
    return at->size * REF_BLOCK;
}

static bool is_large(const struct part *at)
{
    return at->size == REF_LARGE;
}

/* ---- One write ---- */

static bool is_erase_code(uint8_t code)
{
    return code == 0xD7 || code == 0x20 || code == 0x21;
}

static bool is_program_code(uint8_t code)
{
    return code == 0x02 || code == 0x12;
}

/* The codes that have four address bytes on every part that knows them. */
static bool has_four_always(uint8_t code)
{
    return code == 0x21 || code == 0x12;
}

static bool is_known(const struct part *at, uint8_t code)
{
    return (is_erase_code(code) || is_program_code(code)) && (is_large(at) || !has_four_always(code));
}

static size_t address_bytes(const struct part *at, uint8_t code)
{
    return has_four_always(code) || (is_large(at) && (at->bank & EXTADD) != 0) ? 4 : 3;
}

/* High byte first, modulo the size. Three bytes on 512 blocks are in the bank of the bank bit. */
static uint32_t read_address(const struct part *at, const uint8_t *sent, size_t count)
{
    uint32_t address = 0;
    size_t i;

    for (i = 0; i < count; i++)
        address = address << 8 | sent[i];
    if (is_large(at) && count == 3 && (at->bank & BANK_BIT) != 0)
        address += BANK;
    return address % size_of(at);
}

bool read_write(const struct part *at, size_t k, size_t from, struct write_step *write)
{
    const uint8_t *sent = script.input + from;
    size_t head;

    if (script.lengths[k] == 0 || !is_known(at, sent[0]))
        return false;
    head = 1 + address_bytes(at, sent[0]);
    write->erases = is_erase_code(sent[0]);
    if (script.lengths[k] < head || (script.lengths[k] == head) != write->erases)
        return false;
    write->address = read_address(at, sent + 1, head - 1);
    write->data = sent + head;
    write->count = script.lengths[k] - head;
    return true;
}

/* ---- The definition ---- */

bool may_begin(const struct part *at)
{
    uint64_t first, count;
    uint64_t code = (at->status >> 2 & 15) | (is_large(at) ? (at->function & 2) << 3 : 0);

    return at->phase == IDLE && !at->asleep && ref_protection(code, at->size, &first, &count) == 0 && count == 0;
}

/* What the script does, noted by its steps. */
static uint32_t times_erased[SECTORS_MOST];
static uint8_t times_programmed[REF_LARGE * REF_BLOCK]; /* two stand for more */
static bool is_programmed[SECTORS_MOST];                /* a byte of it was noted there */

static void note_nothing(void)
{
    size_t sector;

    memset(times_erased, 0, sizeof times_erased);
    for (sector = 0; sector < SECTORS_MOST; sector++)
        if (is_programmed[sector])
            memset(times_programmed + sector * SECTOR, 0, SECTOR);
    memset(is_programmed, 0, sizeof is_programmed);
}

static bool is_enable(size_t k, size_t from)
{
    return script.lengths[k] == 1 && script.input[from] == 0x06;
}

static bool ticks_are_right(const struct part *at, size_t k, uint32_t least)
{
    return script.ticks[k] >= least && script.ticks[k] <= ref_ticks_most(at->size);
}

/* Every byte has its wanted value, and is noted. */
static bool note_program(const struct write_step *write, const uint8_t *image)
{
    size_t i;

    if (write->address % REF_PAGE + write->count > REF_PAGE)
        return false;
    for (i = 0; i < write->count; i++) {
        uint8_t *times = &times_programmed[write->address + i];

        if (write->data[i] != image[write->address + i])
            return false;
        *times = *times == 0 ? 1 : 2;
        is_programmed[write->address / SECTOR] = true;
    }
    return true;
}

/* The steps come in twos, 06h and a write, each of them in itself as it should be; first the erases, then the programs.
 * What they erase and program is noted. */
static bool steps_are_right(const struct part *at, const uint8_t *image)
{
    bool programs = false;
    size_t k, from = 0;

    for (k = 0; k < steps; k += 2) {
        struct write_step write;

        if (k + 1 == steps || !is_enable(k, from) || !ticks_are_right(at, k, 0))
            return false;
        from += 1;
        if (!read_write(at, k + 1, from, &write))
            return false;
        if (!ticks_are_right(at, k + 1, write.erases ? ERASE_TICKS : (uint32_t)write.count))
            return false;
        if (write.erases && programs)
            return false;
        if (write.erases)
            times_erased[write.address / SECTOR]++;
        else if (!note_program(&write, image))
            return false;
        programs = !write.erases;
        from += script.lengths[k + 1];
    }
    return true;
}

/* Some bit must go from 0 to 1. */
static bool must_be_erased(const uint8_t *array, const uint8_t *image)
{
    size_t i;

    if (memcmp(array, image, SECTOR) == 0)
        return false;
    for (i = 0; i < SECTOR; i++)
        if ((image[i] & ~array[i]) != 0)
            return true;
    return false;
}

/* What a byte holds when the erases are done: FFh in a sector that is erased, and else what it held. */
static uint8_t held(const uint8_t *array, size_t i, bool erased)
{
    return erased ? 0xFF : array[i];
}

/* A sector is erased once if it must be and else not at all; then each byte is programmed once if it differs, and else
 * not at all. Most sectors hold what they should, and nothing is noted of them. */
static bool sector_is_right(const uint8_t *array, const uint8_t *image, size_t at)
{
    bool erased = must_be_erased(array + at, image + at);
    size_t i;

    if (times_erased[at / SECTOR] != (erased ? 1 : 0))
        return false;
    if (!erased && memcmp(array + at, image + at, SECTOR) == 0)
        return !is_programmed[at / SECTOR];
    for (i = at; i < at + SECTOR; i++)
        if (times_programmed[i] != (held(array, i, erased) != image[i] ? 1 : 0))
            return false;
    return true;
}

bool right_script(const struct part *at, const uint8_t *array, const uint8_t *image)
{
    size_t sector;

    note_nothing();
    if (!steps_are_right(at, image))
        return false;
    for (sector = 0; sector < size_of(at); sector += SECTOR)
        if (!sector_is_right(array, image, sector))
            return false;
    return true;
}

/* ---- A write by chance ---- */

/* As sent: high bits that the part disregards are any. */
static void put_address(const struct part *at, uint8_t *sent, size_t count, uint32_t address)
{
    uint32_t room = size_of(at), any = below(1u << 16) << 16 | below(1u << 16);
    uint32_t number = one_in(2) ? address : any / room * room + address;

    if (count == 4)
        *sent++ = (uint8_t)(number >> 24);
    *sent++ = (uint8_t)(number >> 16);
    *sent++ = (uint8_t)(number >> 8);
    *sent = (uint8_t)number;
}

/* Three address bytes reach one bank of 512 blocks. */
static bool reaches(const struct part *at, uint8_t code, uint32_t address)
{
    bool upper = (at->bank & BANK_BIT) != 0;

    if (!is_known(at, code))
        return false;
    return !is_large(at) || address_bytes(at, code) == 4 || (address >= BANK) == upper;
}

static uint8_t any_code(const struct part *at, const uint8_t *codes, size_t count, uint32_t address)
{
    uint8_t code;

    do
        code = pick_byte(codes, count);
    while (!reaches(at, code, address));
    return code;
}

/* Most often 06h has no ticks after it. */
static void add_enable(const struct part *at)
{
    add_code(0x06, one_in(8) ? below((is_large(at) ? 65535 : 4096) + 1) : 0);
}

void add_erase(const struct part *at, uint32_t address, uint32_t ticks)
{
    static const uint8_t codes[] = {0xD7, 0x20, 0x21};
    uint8_t code = any_code(at, codes, COUNT(codes), address), sent[5] = {code};
    size_t count = address_bytes(at, code);

    put_address(at, sent + 1, count, address);
    add_enable(at);
    add(sent, 1 + count, ticks);
}

void add_program(const struct part *at, uint32_t address, const uint8_t *data, size_t count, uint32_t ticks)
{
    static const uint8_t codes[] = {0x02, 0x12};
    uint8_t code = any_code(at, codes, COUNT(codes), address), sent[5 + 2 * REF_PAGE] = {code};
    size_t head = 1 + address_bytes(at, code);

    put_address(at, sent + 1, head - 1, address);
    memcpy(sent + head, data, count);
    add_enable(at);
    add(sent, head + count, ticks);
}

/* ---- A right script by chance ---- */

struct piece {
    uint32_t at, length; /* a length of 0 stands for an erase */
};

#define PIECES_MOST (STEPS_ROOM / 2)

static struct piece pieces[PIECES_MOST];
static size_t piece_count;

static void add_piece(uint32_t at, uint32_t length)
{
    if (piece_count < PIECES_MOST)
        pieces[piece_count++] = (struct piece){at, length};
}

static void exchange(size_t a, size_t b)
{
    struct piece kept = pieces[a];

    pieces[a] = pieces[b];
    pieces[b] = kept;
}

/* In rising order, in falling order, or in any. */
static void order_from(size_t first)
{
    uint32_t way = below(4);
    size_t i, count = piece_count - first;

    if (way == 0)
        return;
    for (i = 0; i < count / 2 && way == 1; i++)
        exchange(first + i, piece_count - 1 - i);
    for (i = count; i > 1 && way > 1; i--)
        exchange(first + i - 1, first + below((uint32_t)i));
}

/* A byte that differs begins a piece or goes to the last one, which ends with its page. */
static void cut_sector(const uint8_t *array, const uint8_t *image, uint32_t sector, uint32_t cut_one_in)
{
    bool erased = must_be_erased(array + sector, image + sector), open = false;
    uint32_t i;

    for (i = sector; i < sector + SECTOR; i++) {
        if (held(array, i, erased) == image[i]) {
            open = false;
            continue;
        }
        if (open && i % REF_PAGE != 0 && (cut_one_in == 0 || !one_in(cut_one_in)))
            pieces[piece_count - 1].length++;
        else
            add_piece(i, 1);
        open = true;
    }
}

/* Mostly as many as are needed. */
static uint32_t enough_ticks(const struct part *at, uint32_t least)
{
    uint32_t most = is_large(at) ? 65535 : 4096;

    switch (below(8)) {
    case 0:
        return most;
    case 1:
        return between(least, most);
    case 2:
        return least + 1;
    default:
        return least;
    }
}

static size_t count_programmed(const uint8_t *array, const uint8_t *image, size_t sector)
{
    bool erased = must_be_erased(array + sector, image + sector);
    size_t i, count = 0;

    for (i = sector; i < sector + SECTOR; i++)
        count += held(array, i, erased) != image[i];
    return count;
}

/* How often the bytes that are programmed are cut apart: each from the next only if there are few. */
static uint32_t any_cut(const struct part *at, const uint8_t *array, const uint8_t *image)
{
    static const uint32_t cuts[] = {0, 0, 60, 8, 1};
    size_t sector, count = 0;

    for (sector = 0; sector < size_of(at); sector += SECTOR)
        if (memcmp(array + sector, image + sector, SECTOR) != 0)
            count += count_programmed(array, image, sector);
    return cuts[below(count < 1500 ? 5 : 4)];
}

void draw_right_script(const struct part *at, const uint8_t *array, const uint8_t *image)
{
    uint32_t cut_one_in = any_cut(at, array, image), sector;
    size_t erases, i;

    piece_count = 0;
    for (sector = 0; sector < size_of(at); sector += SECTOR)
        if (must_be_erased(array + sector, image + sector))
            add_piece(sector, 0);
    erases = piece_count;
    order_from(0);
    for (sector = 0; sector < size_of(at); sector += SECTOR)
        if (memcmp(array + sector, image + sector, SECTOR) != 0)
            cut_sector(array, image, sector, cut_one_in);
    order_from(erases);

    no_steps();
    for (i = 0; i < piece_count; i++) {
        const struct piece *piece = &pieces[i];

        if (piece->length == 0)
            add_erase(at, piece->at + below(SECTOR), enough_ticks(at, ERASE_TICKS));
        else
            add_program(at, piece->at, image + piece->at, piece->length, enough_ticks(at, piece->length));
    }
}
