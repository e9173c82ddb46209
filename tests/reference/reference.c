/* Yawlspar's reference model: see reference.h. The order below is that of the specification. */
#include "reference.h"

/* ---- The part on the bench ---- */

bool ref_size_ok(uint64_t size)
{
    return size == 1 || size == 4 || size == 8 || size == 16 || size == REF_LARGE;
}

/* What 004 adds, its registers' bits and its codes, is on this size alone. */
static bool is_large(uint64_t size)
{
    return size == REF_LARGE;
}

/* Refusal 6: more than 4,096 ticks; on 512 blocks more than 131,072. */
uint32_t ref_ticks_most(uint32_t size)
{
    return is_large(size) ? 131072 : 4096;
}

/* Bytes in the array; asked of good sizes only. */
static uint32_t array_bytes(uint32_t size)
{
    return size * REF_BLOCK;
}

static unsigned bp_code(uint8_t status)
{
    return (status >> 2) & 15u;
}

/* TBS: top area or bottom area. */
static bool bottom_is_selected(uint8_t function)
{
    return (function & 0x02) != 0;
}

/* 01: how many blocks a code protects on the old sizes, and whether they are the bottom ones. */
static uint64_t protects_on_old(unsigned bp, uint64_t size, bool *bottom)
{
    uint64_t many;

    *bottom = bp >= 8;
    if (bp == 0 || bp == 15)
        return 0;
    many = (uint64_t)1 << (bp <= 7 ? bp - 1 : 14 - bp);
    return many > size ? size : many;
}

/* 004, table 6.4: 1 block by code 1 and twice as many by each next one; all 512 from code 10 on. */
static uint64_t protects_on_large(unsigned bp)
{
    if (bp == 0)
        return 0;
    return bp >= 10 ? REF_LARGE : (uint64_t)1 << (bp - 1);
}

/* Protection: the first block that the code protects, and how many it protects from it on. */
int ref_protection(uint64_t code, uint64_t size, uint64_t *first, uint64_t *count)
{
    unsigned bp = (unsigned)(code & 15);
    bool bottom;

    *first = 0;
    *count = 0;
    if (!ref_size_ok(size))
        return 1;
    if (code > (is_large(size) ? 31 : 15))
        return 5;
    if (is_large(size)) {
        bottom = code >= 16;
        *count = protects_on_large(bp);
    } else {
        *count = protects_on_old(bp, size, &bottom);
    }
    if (*count != 0 && !bottom)
        *first = size - *count; /* the top blocks; the bottom ones are from 0 on */
    return 0;
}

/* The code of the protection question under a part's registers. */
static unsigned protection_code(const struct part *part)
{
    bool bottom = is_large(part->size) && bottom_is_selected(part->function);

    return bp_code(part->status) + (bottom ? 16 : 0);
}

/* Is the block of the address, which is inside the part, protected? Asked of good sizes only. */
static bool address_protected(const struct part *part, uint32_t address)
{
    uint32_t block = address / REF_BLOCK;
    uint64_t first, count;

    ref_protection(protection_code(part), part->size, &first, &count);
    return block >= first && block < first + count;
}

/* IRL0 is function bit 4, IRL3 is function bit 7. */
static bool row_locked(uint8_t function, uint32_t row)
{
    return ((function >> (4 + row)) & 1u) != 0;
}

static uint32_t unit_bytes(uint32_t size, uint8_t kind)
{
    switch (kind) {
    case SER:
        return REF_SECTOR;
    case BER32:
        return 32768;
    case BER64:
        return 65536;
    default: /* CER */
        return array_bytes(size);
    }
}

static uint32_t ticks_in_all(uint32_t size, const struct operation *op)
{
    switch (op->kind) {
    case PP:
    case ROW_PROGRAM:
        return op->count;
    case SER:
        return 16;
    case BER32:
        return 128;
    case BER64:
        return 256;
    case CER:
        return 256 * size;
    default: /* row erase, register writes */
        return 1;
    }
}

/* The erases that a program may run within, once they are suspended. */
static bool is_an_outer_erase(uint8_t kind)
{
    return kind == SER || kind == BER32 || kind == BER64;
}

static bool can_be_suspended(uint8_t kind)
{
    return kind == PP || is_an_outer_erase(kind);
}

/* WIP is 1 exactly then. */
static bool is_busy(const struct part *part)
{
    return part->phase == BUSY || part->phase == NESTED;
}

/* The suspended erase, with or without an inner program running; NULL if there is none. ESUS is 1 exactly if there
 * is one. */
static const struct operation *suspended_erase(const struct part *part)
{
    if (part->phase == NESTED)
        return &part->outer;
    if (part->phase == SUSPENDED && part->op.kind != PP)
        return &part->op;
    return NULL;
}

/* PSUS is 1 exactly then. */
static bool program_is_suspended(const struct part *part)
{
    return part->phase == SUSPENDED && part->op.kind == PP;
}

/* Is the address in the unit of the erase? */
static bool in_the_unit(uint32_t size, const struct operation *erase, uint32_t address)
{
    return address >= erase->base && address - erase->base < unit_bytes(size, erase->kind);
}

/* What 01 asks of an operation that runs or is suspended. */
static bool operation_is_sound(const struct part *part, const struct operation *op)
{
    switch (op->kind) {
    case PP:
        if (op->base % REF_PAGE != 0 || op->base >= array_bytes(part->size))
            return false;
        if (address_protected(part, op->base))
            return false;
        if (op->count < 1 || op->count > 256 || op->start >= 256)
            return false;
        break;
    case SER:
    case BER32:
    case BER64:
        if (op->base % unit_bytes(part->size, op->kind) != 0)
            return false;
        if (op->base >= array_bytes(part->size))
            return false;
        if (address_protected(part, op->base))
            return false;
        break;
    case CER:
        if (op->base != 0 || bp_code(part->status) != 0)
            return false;
        break;
    case ROW_ERASE:
    case ROW_PROGRAM:
        if (op->base % REF_PAGE != 0 || op->base >= REF_ROWS)
            return false;
        if (row_locked(part->function, op->base / REF_PAGE))
            return false;
        if (op->kind == ROW_PROGRAM && (op->count < 1 || op->count > 256 || op->start >= 256))
            return false;
        break;
    case WRITE_STATUS:
        if ((op->held & 0x03) != 0)
            return false;
        break;
    case WRITE_FUNCTION:
        if ((op->held & 0x0F) != 0)
            return false;
        break;
    case WRITE_EXTENDED:
        if ((op->held & 0x1F) != 0)
            return false;
        break;
    default:
        return false;
    }
    return op->done < ticks_in_all(part->size, op);
}

/* What 02 asks of the two operations: the outer erase, and the inner program outside of its unit. */
static bool nested_are_sound(const struct part *part)
{
    return is_an_outer_erase(part->outer.kind) && operation_is_sound(part, &part->outer) &&
           part->op.kind == PP && operation_is_sound(part, &part->op) &&
           !in_the_unit(part->size, &part->outer, part->op.base);
}

/* The phase, its operations, and WEL: 1 while busy, 0 while a program is suspended, either while an erase is. */
static bool phase_is_sound(const struct part *part)
{
    switch (part->phase) {
    case IDLE:
        return true;
    case BUSY:
        return part->wel && operation_is_sound(part, &part->op);
    case SUSPENDED:
        return can_be_suspended(part->op.kind) && operation_is_sound(part, &part->op) &&
               !(program_is_suspended(part) && part->wel);
    case NESTED:
        return part->wel && nested_are_sound(part);
    default:
        return false;
    }
}

/* Function bit 0 is zero, and so is bit 1 but for the TBS of 512 blocks. */
static bool tbs_and_bit_0_ok(uint32_t size, uint8_t function)
{
    return (function & (is_large(size) ? 0x01 : 0x03)) == 0;
}

/* The stored bits that other fields define agree with them; those that have to be zero are. */
static bool registers_are_sound(const struct part *part)
{
    if (((part->status & 0x01) != 0) != is_busy(part))
        return false;
    if (((part->status & 0x02) != 0) != part->wel)
        return false;
    if (((part->function & 0x08) != 0) != (suspended_erase(part) != NULL))
        return false;
    if (((part->function & 0x04) != 0) != program_is_suspended(part))
        return false;
    if (!tbs_and_bit_0_ok(part->size, part->function))
        return false;
    if ((part->bank & (is_large(part->size) ? 0x7E : 0xFF)) != 0)
        return false;
    return (part->extended & 0x1F) == 0;
}

/* Page data: zeros after the kept bytes of a program that runs or is suspended, all zero otherwise. */
static bool data_is_sound(const struct part *part)
{
    uint32_t kept = 0;
    uint32_t i;

    if (part->phase != IDLE && (part->op.kind == PP || part->op.kind == ROW_PROGRAM))
        kept = part->op.count;
    for (i = kept; i < REF_PAGE; i++)
        if (part->data[i] != 0)
            return false;
    return true;
}

/* "A record is sound when ..." */
bool ref_sound(const struct part *part)
{
    if (!ref_size_ok(part->size))
        return false;
    if (part->asleep && part->phase != IDLE)
        return false;
    return phase_is_sound(part) && registers_are_sound(part) && data_is_sound(part);
}

/* ---- Setting the fields that hang together ---- */

static void set_wel(struct part *part, bool wel)
{
    part->wel = wel;
    part->status = (uint8_t)((part->status & 0xFD) | (wel ? 0x02 : 0));
}

/* Sets the phase, and WIP, ESUS and PSUS by it; the operations are there already. */
static void set_phase(struct part *part, uint8_t phase)
{
    part->phase = phase;
    part->status = (uint8_t)((part->status & 0xFE) | (is_busy(part) ? 0x01 : 0));
    part->function = (uint8_t)(part->function & 0xF2); /* TBS stays */
    if (suspended_erase(part) != NULL)
        part->function = (uint8_t)(part->function | 0x08);
    if (program_is_suspended(part))
        part->function = (uint8_t)(part->function | 0x04);
}

static void clear_data(struct part *part)
{
    uint32_t i;

    for (i = 0; i < REF_PAGE; i++)
        part->data[i] = 0;
}

static const struct operation no_operation = {NONE, 0, 0, 0, 0, 0};

static void clear_operations(struct part *part)
{
    part->op = no_operation;
    part->outer = no_operation;
    clear_data(part);
}

/* The operation is over, or all operations are dropped: idle, WEL 0. */
static void make_idle(struct part *part)
{
    clear_operations(part);
    set_phase(part, IDLE);
    set_wel(part, false);
}

/* The inner program is over: erase-suspended again, WEL 0. */
static void leave_inner_program(struct part *part)
{
    part->op = part->outer;
    part->outer = no_operation;
    clear_data(part);
    set_phase(part, SUSPENDED);
    set_wel(part, false);
}

/* WEL is 1 and stays so while busy; page data is all zero. What begins in erase suspend is the inner program, and
 * the erase stays beneath it. */
static void begin(struct part *part, uint8_t kind, uint32_t base)
{
    bool inner = part->phase == SUSPENDED;

    if (inner)
        part->outer = part->op;
    part->op = no_operation;
    part->op.kind = kind;
    part->op.base = base;
    set_phase(part, inner ? NESTED : BUSY);
}

static void begin_program(struct part *part, uint8_t kind, uint32_t base, uint32_t start,
                          const uint8_t *sent, size_t count)
{
    size_t skipped = count > 256 ? count - 256 : 0; /* the last 256 count */
    size_t i;

    begin(part, kind, base);
    part->op.start = (uint32_t)((start + skipped) % 256);
    part->op.count = (uint32_t)(count - skipped);
    for (i = 0; i < count - skipped; i++)
        part->data[i] = sent[skipped + i];
}

static void begin_write(struct part *part, uint8_t kind, uint8_t held)
{
    begin(part, kind, 0);
    part->op.held = held;
}

static void clear_errors(struct part *part)
{
    part->e_err = false;
    part->p_err = false;
    part->prot_e = false;
}

/* Power-up and reset load the volatile byte from the stored one, with the error bits 0. */
static void load_extended(struct part *part)
{
    part->live = part->extended;
    clear_errors(part);
}

/* Power-up and reset give the bank address register its printed default: bank 0, three address bytes. */
static void load_bank(struct part *part)
{
    part->bank = 0x00;
}

/* ---- Calls and their numbers ---- */

int ref_power_up(struct part *part, uint32_t size, uint8_t m, uint8_t t, uint8_t c, uint8_t d,
                 uint8_t status, uint8_t function, uint8_t extended)
{
    int answer = 0;

    if (!ref_size_ok(size))
        answer = 1;
    else if ((status & 0x03) != 0 || (function & 0x0C) != 0 || !tbs_and_bit_0_ok(size, function) ||
             (extended & 0x1F) != 0)
        answer = 5;

    part->size = answer == 0 ? size : 1;
    part->m = answer == 0 ? m : 0;
    part->t = answer == 0 ? t : 0;
    part->c = answer == 0 ? c : 0;
    part->d = answer == 0 ? d : 0;
    part->status = answer == 0 ? status : 0;
    part->function = answer == 0 ? function : 0;
    part->extended = answer == 0 ? extended : 0;
    load_extended(part);
    load_bank(part);
    part->wel = false;
    part->armed = false;
    part->asleep = false;
    part->phase = IDLE;
    clear_operations(part);
    return answer;
}

/* Numbers 1 and 2: what is lent. */
static int lent_wrong(const struct part *part, size_t array_length, size_t rows_length)
{
    if (!ref_size_ok(part->size) || array_length != array_bytes(part->size))
        return 1;
    if (rows_length != REF_ROWS)
        return 2;
    return 0;
}

/* ---- Command table ---- */

/* The codes that 004 adds: the bank address register, and table 8.2 as far as 02 asks for it. */
static bool in_the_large_table(uint8_t code)
{
    switch (code) {
    case 0x16: case 0xC8: /* read the bank address register */
    case 0x17: case 0xC5: /* write it */
    case 0xB7: case 0x29: /* set and clear its EXTADD */
    case 0x13: case 0x0C: /* reads */
    case 0x12:            /* PP */
    case 0x21:            /* SER */
    case 0x5C: case 0xDC: /* BER32, BER64 */
        return true;
    default:
        return false;
    }
}

static bool in_the_table(uint32_t size, uint8_t code)
{
    if (is_large(size) && in_the_large_table(code))
        return true;
    switch (code) {
    case 0x03: case 0x0B: case 0x05: case 0x48: case 0x9F: case 0x90: case 0xAB: case 0x68:
    case 0x06: case 0x04:
    case 0x01: case 0x42:
    case 0x02:
    case 0xD7: case 0x20:
    case 0x52: case 0xD8:
    case 0xC7: case 0x60:
    case 0x75: case 0xB0: case 0x7A: case 0x30:
    case 0xB9:
    case 0x66: case 0x99:
    case 0x64: case 0x62:
    case 0x81: case 0x83: case 0x85: case 0x82:
        return true;
    default:
        return false;
    }
}

static bool is_a_read(uint8_t code)
{
    return code == 0x03 || code == 0x0B || code == 0x05 || code == 0x48 || code == 0x9F ||
           code == 0x90 || code == 0xAB || code == 0x68 || code == 0x81 || code == 0x13 ||
           code == 0x0C || code == 0x16 || code == 0xC8;
}

static bool is_an_erase(uint8_t code)
{
    return code == 0xD7 || code == 0x20 || code == 0x52 || code == 0xD8 || code == 0xC7 ||
           code == 0x60 || code == 0x64 || code == 0x21 || code == 0x5C || code == 0xDC;
}

static bool is_a_program(uint8_t code)
{
    return code == 0x02 || code == 0x62 || code == 0x12;
}

static bool taken_while_busy(uint8_t code)
{
    return code == 0x05 || code == 0x48 || code == 0x81 || code == 0x75 || code == 0xB0 ||
           code == 0x66 || code == 0x99;
}

static bool taken_while_suspended(uint8_t code)
{
    return is_a_read(code) || code == 0x7A || code == 0x30 || code == 0x66 || code == 0x99;
}

/* While an erase is suspended, the write enable, the write disable and the program are taken too: these three codes,
 * and not 12h. */
static bool taken_in_erase_suspend(uint8_t code)
{
    return taken_while_suspended(code) || code == 0x06 || code == 0x04 || code == 0x02;
}

/* EXTADD, which is 0 on the old sizes. */
static bool four_bytes_are_selected(const struct part *part)
{
    return (part->bank & 0x80) != 0;
}

/* How many address bytes a code that has an address takes: four by table 8.2 of 004, three or four by EXTADD for
 * those that its table 8.3 lists, three for the others (90h and the rows). */
static uint32_t address_bytes(const struct part *part, uint8_t code)
{
    switch (code) {
    case 0x13: case 0x0C: case 0x12: case 0x21: case 0x5C: case 0xDC:
        return 4;
    case 0x03: case 0x0B: case 0x02: case 0xD7: case 0x20: case 0x52: case 0xD8:
        return four_bytes_are_selected(part) ? 4 : 3;
    default:
        return 3;
    }
}

/* The place behind the code and its address: there the data or the dummy byte is, or the first driven place. */
static size_t behind_address(const struct part *part, uint8_t code)
{
    return 1 + address_bytes(part, code);
}

static bool length_is_right(const struct part *part, uint8_t code, size_t length)
{
    switch (code) {
    case 0x05: case 0x48: case 0x81: case 0x9F: case 0xAB: case 0x16: case 0xC8:
        return length >= 1;
    case 0x03: case 0x13: case 0x90:
        return length >= behind_address(part, code);
    case 0x0B: case 0x0C: case 0x68: /* one dummy byte */
    case 0x02: case 0x12: case 0x62: /* one data byte or more */
        return length >= behind_address(part, code) + 1;
    case 0x01: case 0x42: case 0x83: case 0x85: case 0x17: case 0xC5:
        return length == 2;
    case 0xD7: case 0x20: case 0x52: case 0xD8: case 0x64: case 0x21: case 0x5C: case 0xDC:
        return length == behind_address(part, code);
    default:
        return length == 1;
    }
}

static bool needs_wel(uint8_t code)
{
    switch (code) {
    case 0x01: case 0x42: case 0x85: case 0x02: case 0xD7: case 0x20: case 0x52: case 0xD8:
    case 0xC7: case 0x60: case 0x64: case 0x62: case 0x12: case 0x21: case 0x5C: case 0xDC:
        return true;
    default:
        return false;
    }
}

static bool is_a_row_command(uint8_t code)
{
    return code == 0x68 || code == 0x64 || code == 0x62;
}

/* Row addresses, as sent: 00h, then 00h, 10h, 20h or 30h, then a byte address. */
static bool row_address_is_valid(const uint8_t *in)
{
    return in[1] == 0x00 && (in[2] == 0x00 || in[2] == 0x10 || in[2] == 0x20 || in[2] == 0x30);
}

/* A: three or four address bytes, high byte first, modulo the array size. The bank bit, which is 0 on the old sizes,
 * is the bit above three bytes; with four it is not used. Asked of the codes of the array only. */
static uint32_t address_of(const struct part *part, const uint8_t *in)
{
    uint32_t bytes = address_bytes(part, in[0]);
    uint32_t sent = bytes == 3 ? part->bank & 1u : 0;
    uint32_t i;

    for (i = 1; i <= bytes; i++)
        sent = sent << 8 | in[i];
    return sent % array_bytes(part->size);
}

/* A program into the suspended unit: the page of A lies in it. */
static bool in_suspended_unit(const struct part *part, uint32_t address)
{
    const struct operation *erase = suspended_erase(part);

    return erase != NULL && in_the_unit(part->size, erase, address - address % REF_PAGE);
}

/* Number 28, for a transaction of the right length with a valid row address if it has one. */
static bool barred(const struct part *part, bool wp_high, const uint8_t *in)
{
    switch (in[0]) {
    case 0x01: /* SRWD 1, QE 0, WP# low */
        return (part->status & 0x80) != 0 && (part->status & 0x40) == 0 && !wp_high;
    case 0x02: case 0x12:
        return address_protected(part, address_of(part, in)) ||
               in_suspended_unit(part, address_of(part, in));
    case 0xD7: case 0x20: case 0x52: case 0xD8: case 0x21: case 0x5C: case 0xDC:
        return address_protected(part, address_of(part, in));
    case 0xC7: case 0x60:
        return bp_code(part->status) != 0;
    case 0x64: case 0x62:
        return row_locked(part->function, in[2] / 16u);
    default:
        return false;
    }
}

/* Numbers 20 to 28, the lowest that applies; 0 when the transaction is executed. */
static int ignored_with(const struct part *part, bool wp_high, const uint8_t *in, size_t length)
{
    uint8_t code = in[0];

    if (!in_the_table(part->size, code))
        return 20;
    if (part->asleep && code != 0xAB)
        return 21;
    if (is_busy(part) && !taken_while_busy(code))
        return 22;
    if (program_is_suspended(part) && !taken_while_suspended(code))
        return 23;
    if (part->phase == SUSPENDED && !taken_in_erase_suspend(code))
        return 23;
    if (!length_is_right(part, code, length))
        return 24;
    if ((code == 0x75 || code == 0xB0) && /* an inner program can't be suspended */
        !(part->phase == BUSY && can_be_suspended(part->op.kind)))
        return 25;
    if ((code == 0x7A || code == 0x30) && part->phase != SUSPENDED)
        return 25;
    if (code == 0x99 && !part->armed)
        return 25;
    if (needs_wel(code) && !part->wel)
        return 26;
    if (is_a_row_command(code) && !row_address_is_valid(in))
        return 27;
    if (barred(part, wp_high, in))
        return 28;
    return 0;
}

/* An erase that answers 28 sets E_ERR and PROT_E, a program that does sets P_ERR and PROT_E; nothing else
 * sets them. */
static void set_errors(struct part *part, uint8_t code)
{
    if (is_an_erase(code)) {
        part->e_err = true;
        part->prot_e = true;
    } else if (is_a_program(code)) {
        part->p_err = true;
        part->prot_e = true;
    }
}

/* The extended read register as 81h reads it: bit 4 reads 1, bit 0 follows WIP. */
static uint8_t extended_as_read(const struct part *part)
{
    return (uint8_t)((part->live & 0xE0) | 0x10 | (part->e_err ? 0x08 : 0) | (part->p_err ? 0x04 : 0) |
                     (part->prot_e ? 0x02 : 0) | (is_busy(part) ? 0x01 : 0));
}

/* The register that 05h, 48h, 16h, C8h or 81h reads. */
static uint8_t register_of(const struct part *part, uint8_t code)
{
    switch (code) {
    case 0x05:
        return part->status;
    case 0x48:
        return part->function;
    case 0x16:
    case 0xC8:
        return part->bank;
    default: /* 81h */
        return extended_as_read(part);
    }
}

int ref_transact(struct part *part, const uint8_t *array, size_t array_length, const uint8_t *rows,
                 size_t rows_length, bool wp_high, const uint8_t *in, size_t in_length, uint8_t *out,
                 size_t out_length, size_t *first)
{
    int answer;
    uint32_t a;
    size_t i;

    *first = 0;
    answer = lent_wrong(part, array_length, rows_length);
    if (answer != 0)
        return answer;
    if (in_length == 0 || in_length > REF_MOST)
        return 3;
    if (out_length != in_length)
        return 4;
    if (!ref_sound(part))
        return 5;

    /* nothing is driven until a command drives it */
    for (i = 0; i < out_length; i++)
        out[i] = 0xFF;
    *first = in_length;

    answer = ignored_with(part, wp_high, in, in_length);
    if (answer != 0) {
        if (answer == 28)
            set_errors(part, in[0]);
        part->armed = false;
        return answer;
    }
    if (in[0] == 0x99) { /* reset; it is armed. It drops both operations */
        make_idle(part);
        load_extended(part);
        load_bank(part);
        part->asleep = false;
        part->armed = false;
        return 0;
    }
    part->armed = in[0] == 0x66;

    switch (in[0]) {
    case 0x03: /* read, from behind the address */
    case 0x13:
    case 0x0B: /* read with one dummy byte before that */
    case 0x0C: {
        bool dummy = in[0] == 0x0B || in[0] == 0x0C;
        size_t from = behind_address(part, in[0]) + (dummy ? 1 : 0);

        a = address_of(part, in);
        for (i = from; i < in_length; i++) {
            out[i] = array[a];
            a = a + 1;
            if (a == array_bytes(part->size)) /* on past the end to address 0 */
                a = 0;
        }
        if (from < in_length)
            *first = from;
        break;
    }
    case 0x05:
    case 0x48:
    case 0x81:
    case 0x16:
    case 0xC8:
        for (i = 1; i < in_length; i++)
            out[i] = register_of(part, in[0]);
        if (in_length > 1)
            *first = 1;
        break;
    case 0x9F:
        for (i = 1; i < in_length; i++) {
            if ((i - 1) % 3 == 0)
                out[i] = part->m;
            else if ((i - 1) % 3 == 1)
                out[i] = part->t;
            else
                out[i] = part->c;
        }
        if (in_length > 1)
            *first = 1;
        break;
    case 0x90: { /* bit 0 of the third address byte clear: M first, set: D first */
        bool maker = (in[3] & 1) == 0;

        for (i = 4; i < in_length; i++) {
            out[i] = maker ? part->m : part->d;
            maker = !maker;
        }
        if (in_length > 4)
            *first = 4;
        break;
    }
    case 0xAB:
        part->asleep = false;
        for (i = 4; i < in_length; i++)
            out[i] = part->d;
        if (in_length > 4)
            *first = 4;
        break;
    case 0x68: { /* row read, one dummy, from 5; wraps inside the row */
        uint32_t row = (uint32_t)(in[2] / 16) * REF_PAGE;
        uint32_t place = in[3];

        for (i = 5; i < in_length; i++) {
            out[i] = rows[row + place];
            place = (place + 1) % REF_PAGE;
        }
        if (in_length > 5)
            *first = 5;
        break;
    }
    case 0x06:
        set_wel(part, true);
        break;
    case 0x04:
        set_wel(part, false);
        break;
    case 0x01:
        begin_write(part, WRITE_STATUS, in[1] & 0xFC);
        break;
    case 0x42:
        begin_write(part, WRITE_FUNCTION, in[1] & 0xF0);
        break;
    case 0x02: /* the page of A */
    case 0x12: {
        size_t from = behind_address(part, in[0]);

        a = address_of(part, in);
        begin_program(part, PP, a - a % REF_PAGE, a % REF_PAGE, in + from, in_length - from);
        break;
    }
    case 0xD7: /* the unit that holds A */
    case 0x20:
    case 0x21:
        a = address_of(part, in);
        begin(part, SER, a - a % unit_bytes(part->size, SER));
        break;
    case 0x52:
    case 0x5C:
        a = address_of(part, in);
        begin(part, BER32, a - a % unit_bytes(part->size, BER32));
        break;
    case 0xD8:
    case 0xDC:
        a = address_of(part, in);
        begin(part, BER64, a - a % unit_bytes(part->size, BER64));
        break;
    case 0xC7:
    case 0x60:
        begin(part, CER, 0);
        break;
    case 0x75: /* suspend: WIP and WEL become 0, PSUS or ESUS 1 */
    case 0xB0:
        set_phase(part, SUSPENDED);
        set_wel(part, false);
        break;
    case 0x7A: /* resume: goes on with the next tick, WEL 1 */
    case 0x30:
        set_phase(part, BUSY);
        set_wel(part, true);
        break;
    case 0xB9:
        part->asleep = true;
        break;
    case 0x66: /* armed above */
        break;
    case 0x64: /* the byte address is disregarded */
        begin(part, ROW_ERASE, (uint32_t)(in[2] / 16) * REF_PAGE);
        break;
    case 0x62:
        begin_program(part, ROW_PROGRAM, (uint32_t)(in[2] / 16) * REF_PAGE, in[3], in + 4,
                      in_length - 4);
        break;
    case 0x83: /* at once */
        part->live = in[1] & 0xE0;
        break;
    case 0x85:
        begin_write(part, WRITE_EXTENDED, in[1] & 0xE0);
        break;
    case 0x82: /* at once too */
        clear_errors(part);
        break;
    case 0x17: /* at once, as are the next two; WEL stays */
    case 0xC5:
        part->bank = in[1] & 0x81;
        break;
    case 0xB7: /* EXTADD alone; the bank bit stays */
        part->bank = part->bank | 0x80;
        break;
    case 0x29:
        part->bank = part->bank & 0x7F;
        break;
    default: /* no other code gets here */
        break;
    }
    return 0;
}

/* ---- Ticks ---- */

/* One tick of a busy part. */
static void one_tick(struct part *part, uint8_t *array, uint8_t *rows)
{
    struct operation *op = &part->op;
    uint8_t *page;
    uint32_t i, place;

    switch (op->kind) {
    case PP: /* one kept byte: new = old AND data */
    case ROW_PROGRAM:
        page = (op->kind == PP ? array : rows) + op->base;
        place = (op->start + op->done) % REF_PAGE;
        page[place] = page[place] & part->data[op->done];
        break;
    case SER: /* the next page, lowest first */
    case BER32:
    case BER64:
    case CER:
        page = array + op->base + op->done * REF_PAGE;
        for (i = 0; i < REF_PAGE; i++)
            page[i] = 0xFF;
        break;
    case ROW_ERASE:
        page = rows + op->base;
        for (i = 0; i < REF_PAGE; i++)
            page[i] = 0xFF;
        break;
    case WRITE_STATUS: /* bits 7..2; WEL and WIP follow below */
        part->status = (uint8_t)((part->status & 0x03) | op->held);
        break;
    case WRITE_FUNCTION: /* sets IRL bits, never clears one; TBS stays */
        part->function = part->function | op->held;
        break;
    case WRITE_EXTENDED: /* the stored byte; the volatile one stays */
        part->extended = op->held;
        break;
    default:
        break;
    }
    op->done = op->done + 1;
    if (op->done < ticks_in_all(part->size, op))
        return;
    if (part->phase == NESTED)
        leave_inner_program(part);
    else
        make_idle(part);
}

/* Request 12 of 02: each page has a bit in the map, low bit first. */
static void set_bit(uint8_t *map, uint32_t page, bool bit)
{
    uint8_t in_its_byte = (uint8_t)(1u << (page % 8));

    if (bit)
        map[page / 8] = map[page / 8] | in_its_byte;
    else
        map[page / 8] = map[page / 8] & (uint8_t)~in_its_byte;
}

/* All FFh. */
static bool is_blank(const uint8_t *array, uint32_t page)
{
    uint32_t i;

    for (i = 0; i < REF_PAGE; i++)
        if (array[page * REF_PAGE + i] != 0xFF)
            return false;
    return true;
}

/* Makes the bit of the page right. */
static void see_page(uint8_t *map, const uint8_t *array, uint32_t page)
{
    set_bit(map, page, is_blank(array, page));
}

/* Does the next tick of a busy part reach a page of the array? */
static bool reaches_a_page(const struct part *part, uint32_t *page)
{
    switch (part->op.kind) {
    case PP:
        *page = part->op.base / REF_PAGE;
        return true;
    case SER:
    case BER32:
    case BER64:
    case CER:
        *page = part->op.base / REF_PAGE + part->op.done;
        return true;
    default: /* rows and registers */
        return false;
    }
}

/* A tick, and the bit of the page that it reached. */
static void one_tick_with_map(struct part *part, uint8_t *array, uint8_t *rows, uint8_t *map)
{
    uint32_t page;
    bool reaches = reaches_a_page(part, &page);

    one_tick(part, array, rows);
    if (reaches)
        see_page(map, array, page);
}

/* Request 7 of 02: "a full count stays". */
static void count_one(uint32_t *count)
{
    if (*count != REF_FULL)
        *count = *count + 1;
}

/* What the next tick of a busy part counts, before it is run: an erase "at the tick that finishes that sector", a page
 * program "at its last tick", and rows and registers never. */
static void count_wear(const struct part *part, struct wear *wear)
{
    const struct operation *op = &part->op;
    uint32_t page;

    switch (op->kind) {
    case PP:
        if (op->done + 1 == ticks_in_all(part->size, op))
            count_one(&wear[op->base / REF_SECTOR].programs);
        break;
    case SER:
    case BER32:
    case BER64:
    case CER:
        page = op->base / REF_PAGE + op->done; /* the last page of its sector is the one that finishes it */
        if ((page + 1) % (REF_SECTOR / REF_PAGE) == 0)
            count_one(&wear[page / (REF_SECTOR / REF_PAGE)].erases);
        break;
    default:
        break;
    }
}

/* What a call is lent beside array and rows, or NULL. */
struct beside {
    uint8_t *map;
    struct wear *wear;
};

/* A tick, and what is kept beside it. */
static void one_tick_beside(struct part *part, uint8_t *array, uint8_t *rows, struct beside beside)
{
    if (beside.wear != NULL)
        count_wear(part, beside.wear);
    if (beside.map != NULL)
        one_tick_with_map(part, array, rows, beside.map);
    else
        one_tick(part, array, rows);
}

/* A tick call that is lent something beside, or nothing. */
static int tick_call(struct part *part, uint8_t *array, size_t array_length, uint8_t *rows,
                     size_t rows_length, uint32_t ticks, uint32_t *worked, struct beside beside)
{
    int answer;
    uint32_t asked;

    *worked = 0;
    answer = lent_wrong(part, array_length, rows_length);
    if (answer != 0)
        return answer;
    if (!ref_sound(part))
        return 5;
    if (ticks > ref_ticks_most(part->size))
        return 6;
    for (asked = 0; asked < ticks; asked++) {
        if (is_busy(part)) {
            one_tick_beside(part, array, rows, beside);
            *worked = *worked + 1;
        }
    }
    return 0;
}

int ref_tick(struct part *part, uint8_t *array, size_t array_length, uint8_t *rows,
             size_t rows_length, uint32_t ticks, uint32_t *worked)
{
    return tick_call(part, array, array_length, rows, rows_length, ticks, worked, (struct beside){NULL, NULL});
}

/* ---- Request 2 of 02: a script ---- */

/* Do the lengths add up to the input? */
static bool adds_up(const uint16_t *lengths, size_t count, size_t in_length)
{
    uint64_t sum = 0;
    size_t i;

    for (i = 0; i < count; i++)
        sum = sum + lengths[i];
    return sum == in_length;
}

/* "The first call that answers 1 to 6", which is where a script stops. */
static bool stops(int answer)
{
    return answer >= 1 && answer <= 6;
}

/* A script that is lent something beside, or nothing. */
static int script_call(struct part *part, uint8_t *array, size_t array_length, uint8_t *rows, size_t rows_length,
                       bool wp_high, const uint8_t *in, size_t in_length, const uint16_t *lengths,
                       size_t lengths_count, const uint16_t *ticks, size_t ticks_count, uint8_t *out,
                       size_t out_length, uint8_t *answers, size_t answers_count, uint16_t *done, size_t done_count,
                       size_t *step, struct beside beside)
{
    int answer;
    size_t first, from = 0;
    uint32_t worked;

    /* 1, 2, 7, 4, 5 "in that order are tested before the first step" */
    *step = 0;
    answer = lent_wrong(part, array_length, rows_length);
    if (answer != 0)
        return answer;
    if (ticks_count != lengths_count || answers_count != lengths_count || done_count != lengths_count ||
        !adds_up(lengths, lengths_count, in_length))
        return 7;
    if (out_length != in_length)
        return 4;
    if (!ref_sound(part))
        return 5;

    for (; *step < lengths_count; *step = *step + 1) {
        size_t length = lengths[*step];

        answer = ref_transact(part, array, array_length, rows, rows_length, wp_high, in + from, length, out + from,
                              length, &first);
        answers[*step] = (uint8_t)answer;
        done[*step] = 0;
        if (stops(answer))
            return answer;
        answer = tick_call(part, array, array_length, rows, rows_length, ticks[*step], &worked, beside);
        done[*step] = (uint16_t)worked;
        if (stops(answer))
            return answer;
        from = from + length;
    }
    return 0;
}

int ref_script(struct part *part, uint8_t *array, size_t array_length, uint8_t *rows, size_t rows_length,
               bool wp_high, const uint8_t *in, size_t in_length, const uint16_t *lengths, size_t lengths_count,
               const uint16_t *ticks, size_t ticks_count, uint8_t *out, size_t out_length, uint8_t *answers,
               size_t answers_count, uint16_t *done, size_t done_count, size_t *step)
{
    return script_call(part, array, array_length, rows, rows_length, wp_high, in, in_length, lengths, lengths_count,
                       ticks, ticks_count, out, out_length, answers, answers_count, done, done_count, step,
                       (struct beside){NULL, NULL});
}

/* ---- Request 13 of 02: a check of a script ---- */

/* The first step whose transaction's answer is not 0, or `count`. */
static size_t first_not_executed(const uint8_t *answers, size_t count)
{
    size_t k = 0;

    while (k < count && answers[k] == 0)
        k++;
    return k;
}

/* The first address where the two differ, or `length`. */
static size_t first_difference(const uint8_t *array, const uint8_t *image, size_t length)
{
    size_t address = 0;

    while (address < length && array[address] == image[address])
        address++;
    return address;
}

int ref_check(struct part *part, uint8_t *array, size_t array_length, uint8_t *rows, size_t rows_length,
              bool wp_high, const uint8_t *in, size_t in_length, const uint16_t *lengths, size_t lengths_count,
              const uint16_t *ticks, size_t ticks_count, uint8_t *out, size_t out_length, uint8_t *answers,
              size_t answers_count, uint16_t *done, size_t done_count, const uint8_t *image, size_t image_length,
              enum verdict *verdict, size_t *where)
{
    size_t step;
    int answer;

    /* 38 "after 1"; those after it are the script's */
    *verdict = YES;
    *where = 0;
    if (lent_wrong(part, array_length, rows_length) == 1)
        return 1;
    if (image_length != array_length)
        return 38;
    answer = ref_script(part, array, array_length, rows, rows_length, wp_high, in, in_length, lengths, lengths_count,
                        ticks, ticks_count, out, out_length, answers, answers_count, done, done_count, &step);
    if (answer != 0 && answer != 3 && answer != 6)
        return answer;

    /* "the first failing step": before the one that stopped the script, or that one; or else how many steps there are,
     * "if none failed but the part is not idle" */
    *where = first_not_executed(answers, step);
    if (*where < lengths_count || part->phase != IDLE) {
        *verdict = AT_STEP;
        return 0;
    }
    *where = first_difference(array, image, array_length);
    if (*where < array_length)
        *verdict = AT_ADDRESS;
    else
        *where = 0;
    return 0;
}

/* ---- Request 12 of 02: a map of blank pages ---- */

/* The pages of a part, and the bytes of its map; asked of good sizes only. */
static uint32_t pages_of(uint32_t size)
{
    return array_bytes(size) / REF_PAGE;
}

static size_t map_bytes(uint32_t size)
{
    return pages_of(size) / 8;
}

/* 36 "after 1"; the others are those of the call without a map. */
static int map_wrong(const struct part *part, size_t array_length, size_t map_length)
{
    if (lent_wrong(part, array_length, REF_ROWS) != 0)
        return 1;
    return map_length != map_bytes(part->size) ? 36 : 0;
}

int ref_map_rebuild(uint64_t size, const uint8_t *array, size_t array_length, uint8_t *map, size_t map_length)
{
    uint32_t page;

    if (!ref_size_ok(size) || array_length != array_bytes((uint32_t)size))
        return 1;
    if (map_length != map_bytes((uint32_t)size))
        return 36;
    for (page = 0; page < pages_of((uint32_t)size); page++)
        see_page(map, array, page);
    return 0;
}

int ref_map_next(uint64_t size, const uint8_t *map, size_t map_length, uint64_t page, uint32_t *next)
{
    uint32_t pages;

    *next = 0;
    if (!ref_size_ok(size))
        return 1;
    if (map_length != map_bytes((uint32_t)size))
        return 36;
    pages = pages_of((uint32_t)size);
    if (page >= pages)
        return 37;
    *next = (uint32_t)page;
    while (*next < pages && ((map[*next / 8] >> (*next % 8)) & 1u) == 0)
        *next = *next + 1;
    return 0;
}

int ref_tick_map(struct part *part, uint8_t *array, size_t array_length, uint8_t *rows, size_t rows_length,
                 uint32_t ticks, uint32_t *worked, uint8_t *map, size_t map_length)
{
    int answer;

    *worked = 0;
    answer = map_wrong(part, array_length, map_length);
    if (answer != 0)
        return answer;
    return tick_call(part, array, array_length, rows, rows_length, ticks, worked, (struct beside){map, NULL});
}

int ref_script_map(struct part *part, uint8_t *array, size_t array_length, uint8_t *rows, size_t rows_length,
                   bool wp_high, const uint8_t *in, size_t in_length, const uint16_t *lengths, size_t lengths_count,
                   const uint16_t *ticks, size_t ticks_count, uint8_t *out, size_t out_length, uint8_t *answers,
                   size_t answers_count, uint16_t *done, size_t done_count, size_t *step, uint8_t *map,
                   size_t map_length)
{
    int answer;

    *step = 0;
    answer = map_wrong(part, array_length, map_length);
    if (answer != 0)
        return answer;
    return script_call(part, array, array_length, rows, rows_length, wp_high, in, in_length, lengths, lengths_count,
                       ticks, ticks_count, out, out_length, answers, answers_count, done, done_count, step,
                       (struct beside){map, NULL});
}

/* ---- Request 7 of 02: wear, in whole numbers ---- */

/* The sectors of a part; asked of good sizes only. */
static uint32_t sectors_of(uint32_t size)
{
    return array_bytes(size) / REF_SECTOR;
}

/* 35 "after 1"; the others are those of the call without wear. */
static int wear_wrong(const struct part *part, size_t array_length, size_t wear_count)
{
    if (lent_wrong(part, array_length, REF_ROWS) != 0)
        return 1;
    return wear_count != sectors_of(part->size) ? 35 : 0;
}

int ref_tick_wear(struct part *part, uint8_t *array, size_t array_length, uint8_t *rows, size_t rows_length,
                  uint32_t ticks, uint32_t *worked, struct wear *wear, size_t wear_count)
{
    int answer;

    *worked = 0;
    answer = wear_wrong(part, array_length, wear_count);
    if (answer != 0)
        return answer;
    return tick_call(part, array, array_length, rows, rows_length, ticks, worked, (struct beside){NULL, wear});
}

int ref_script_wear(struct part *part, uint8_t *array, size_t array_length, uint8_t *rows, size_t rows_length,
                    bool wp_high, const uint8_t *in, size_t in_length, const uint16_t *lengths, size_t lengths_count,
                    const uint16_t *ticks, size_t ticks_count, uint8_t *out, size_t out_length, uint8_t *answers,
                    size_t answers_count, uint16_t *done, size_t done_count, size_t *step, struct wear *wear,
                    size_t wear_count)
{
    int answer;

    *step = 0;
    answer = wear_wrong(part, array_length, wear_count);
    if (answer != 0)
        return answer;
    return script_call(part, array, array_length, rows, rows_length, wp_high, in, in_length, lengths, lengths_count,
                       ticks, ticks_count, out, out_length, answers, answers_count, done, done_count, step,
                       (struct beside){NULL, wear});
}

size_t ref_wear_text_bytes(uint64_t size)
{
    return (size_t)size * 512 + 64;
}

/* The text, and how many bytes of it there are so far. */
struct written {
    uint8_t *text;
    size_t length;
};

static void print_byte(struct written *to, char byte)
{
    to->text[to->length] = (uint8_t)byte;
    to->length = to->length + 1;
}

static void print_words(struct written *to, const char *words)
{
    while (*words != 0) {
        print_byte(to, *words);
        words = words + 1;
    }
}

static void print_decimal(struct written *to, uint64_t number)
{
    if (number >= 10)
        print_decimal(to, number / 10);
    print_byte(to, (char)('0' + number % 10));
}

/* A line but for its first word and for what may stand at its end. */
static void print_pair(struct written *to, uint64_t erases, uint64_t programs)
{
    print_byte(to, ' ');
    print_decimal(to, erases);
    print_byte(to, ' ');
    print_decimal(to, programs);
}

static uint64_t larger(uint64_t one, uint64_t other)
{
    return one > other ? one : other;
}

int ref_wear_text(uint64_t size, const struct wear *wear, size_t wear_count, uint8_t *text, size_t text_length,
                  size_t *written)
{
    uint64_t most_erases = 0, most_programs = 0, all_erases = 0, all_programs = 0;
    struct written to = {text, 0};
    uint32_t sector;

    *written = 0;
    if (!ref_size_ok(size))
        return 1;
    if (wear_count != sectors_of((uint32_t)size))
        return 35;
    if (text_length != ref_wear_text_bytes(size))
        return 4;
    for (sector = 0; sector < sectors_of((uint32_t)size); sector++) {
        print_decimal(&to, sector);
        print_pair(&to, wear[sector].erases, wear[sector].programs);
        if (wear[sector].erases == REF_FULL || wear[sector].programs == REF_FULL)
            print_words(&to, " full");
        print_byte(&to, '\n');
        most_erases = larger(most_erases, wear[sector].erases);
        most_programs = larger(most_programs, wear[sector].programs);
        all_erases = all_erases + wear[sector].erases;
        all_programs = all_programs + wear[sector].programs;
    }
    print_words(&to, "largest");
    print_pair(&to, most_erases, most_programs);
    print_words(&to, "\ntotal");
    print_pair(&to, all_erases, all_programs);
    print_byte(&to, '\n');
    *written = to.length;
    return 0;
}
