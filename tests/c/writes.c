/* Writes as drivers make them: see writes.h. */
#include "writes.h"

extern int memcmp(const void *, const void *, unsigned long);
extern void *memcpy(void *, const void *, unsigned long);
extern void *memset(void *, int, unsigned long);

#define BANK 0x1000000u
#define EXTADD 0x80u
#define BP_BITS 0x3Cu

const struct side *const one = &model, *const other = &reference;

uint64_t runs;

static uint32_t blocks; /* of both parts */

/* Of part one, and when a run begins of both. No write changes them. */
static uint8_t maker, type, capacity, device, status, function, extended, bank;

bool is_large(void)
{
    return blocks == REF_LARGE;
}

static uint32_t array_bytes(void)
{
    return blocks * REF_BLOCK;
}

uint32_t ticks_most(void)
{
    return is_large() ? 131072 : 4096;
}

/* ---- What is written ---- */

uint8_t *bytes_of(const struct side *side, const struct unit *unit)
{
    return (unit->of_rows ? side->rows : side->array) + unit->at;
}

/* What this run writes: at most what an erase sets, and three pages. */
static struct unit used[4];
static size_t used_count;

/* The rows are always compared. */
static void same_unit(const struct unit *unit)
{
    struct call call = fitting(TICK);

    if (!unit->of_rows)
        same_places(&call, unit->at, unit->bytes);
}

/* Fills it anew on both parts, for this run to write. It is compared before, so that no difference is lost. */
static void use(const struct unit *unit)
{
    struct chance chance = {below(UINT32_MAX)};

    same_unit(unit);
    fill(bytes_of(one, unit), unit->bytes, &chance);
    memcpy(bytes_of(other, unit), bytes_of(one, unit), unit->bytes);
    used[used_count++] = *unit;
}

static bool is_locked(uint32_t row)
{
    return (function >> (4 + row) & 1) != 0;
}

static struct unit row_unit(uint32_t row)
{
    return (struct unit){true, row * REF_PAGE, REF_PAGE};
}

/* The unit of so many bytes that holds an address of the array. */
static struct unit array_unit(uint32_t address, uint32_t bytes)
{
    return (struct unit){false, address / bytes * bytes, bytes};
}

/* Any address, or one at the first or the last byte of a block. */
static uint32_t any_address(void)
{
    uint32_t border = below(blocks) * REF_BLOCK;

    if (one_in(2))
        return below(array_bytes());
    return (border + array_bytes() - below(2)) % array_bytes();
}

/* The code of the protection question. */
static uint64_t protection_code(void)
{
    return (uint64_t)((status & BP_BITS) >> 2 | (function & TBS) << 3);
}

static bool is_protected(uint32_t address)
{
    return yawlspar_protected(protection_code(), blocks, address) != 0;
}

static uint32_t free_address(void)
{
    uint32_t address;

    do
        address = any_address();
    while (is_protected(address));
    return address;
}

struct unit any_page(void)
{
    uint32_t row = below(4);

    return one_in(3) && !is_locked(row) ? row_unit(row) : array_unit(free_address(), REF_PAGE);
}

struct unit fresh_page(void)
{
    struct unit page = any_page();

    use(&page);
    return page;
}

struct unit another_fresh_page(const struct unit *page)
{
    struct unit another;

    do
        another = any_page();
    while (another.of_rows == page->of_rows && another.at == page->at);
    use(&another);
    return another;
}

struct unit page_in(const struct unit *unit)
{
    return (struct unit){unit->of_rows, unit->at + below(unit->bytes / REF_PAGE) * REF_PAGE, REF_PAGE};
}

/* ---- Programs and erases ---- */

struct array_command {
    uint8_t code;      /* three address bytes, or four with EXTADD */
    uint8_t four_code; /* four address bytes: of 512 blocks alone */
    uint32_t bytes;    /* of its unit */
};

static const struct array_command page_program = {0x02, 0x12, REF_PAGE};
static const struct array_command array_erases[] = {
    {0xD7, 0x21, 4096}, {0x20, 0x21, 4096}, {0x52, 0x5C, 32768}, {0xD8, 0xDC, 65536}};

static void add(struct write *write, uint32_t byte)
{
    write->bytes[write->length++] = (uint8_t)byte;
}

static void add_address(struct write *write, uint32_t address)
{
    add(write, address >> 16);
    add(write, address >> 8);
    add(write, address);
}

/* Three address bytes are enough if EXTADD is 0 and the bank bit is the right one. Bits above the array are any. */
static void start_in_array(struct write *write, const struct array_command *command, uint32_t address)
{
    bool four_bytes = (bank & EXTADD) != 0, in_bank = address / BANK == bank;
    bool by_code = is_large() && (one_in(3) || (!four_bytes && !in_bank));

    write->unit = array_unit(address, command->bytes);
    write->length = 0;
    add(write, by_code ? command->four_code : command->code);
    if (by_code || four_bytes)
        add(write, address / BANK | (any_byte() & 0xFEu));
    add_address(write, is_large() ? address : address + below(BANK / array_bytes()) * array_bytes());
}

static void start_in_rows(struct write *write, uint8_t code, uint32_t row, uint32_t place)
{
    write->unit = row_unit(row);
    write->length = 0;
    add(write, code);
    add_address(write, row * 0x1000 + place);
}

void start_program(struct write *program, const struct unit *page, uint32_t start)
{
    if (page->of_rows)
        start_in_rows(program, 0x62, page->at / REF_PAGE, start);
    else
        start_in_array(program, &page_program, page->at + start);
    program->start = start;
    program->data = program->length;
}

uint32_t data_count(const struct write *program)
{
    return program->length - program->data;
}

void add_data(struct write *program, const uint8_t *data, uint32_t count)
{
    memcpy(program->bytes + program->length, data, count);
    program->length += count;
    program->ticks = data_count(program) < REF_PAGE ? data_count(program) : REF_PAGE;
}

void draw_data(uint8_t *data, uint32_t count)
{
    uint32_t i;

    for (i = 0; i < count; i++)
        data[i] = any_byte() | any_byte();
}

static uint32_t draw_count(uint32_t most)
{
    static const uint16_t counts[] = {255, 256, 257, 511, 512, 513};

    switch (below(8)) {
    case 0:
        return counts[below(COUNT(counts))];
    case 1:
        return between(257, 700);
    case 2:
        return one_in(2) ? most : between(1, most);
    case 3:
    case 4:
        return between(1, 12);
    default:
        return between(1, REF_PAGE);
    }
}

void draw_program(struct write *program, const struct unit *page)
{
    uint8_t data[REF_MOST];
    uint32_t count;

    start_program(program, page, below(REF_PAGE));
    count = draw_count(REF_MOST - program->length);
    draw_data(data, count);
    add_data(program, data, count);
}

/* What an erase can set: a row, the array, or a sector or block of it. */
static struct unit any_erase_unit(void)
{
    uint32_t kind = below(8), row = below(4), bytes = array_erases[below(COUNT(array_erases))].bytes;

    if (kind == 0 && (status & BP_BITS) == 0)
        return array_unit(0, array_bytes());
    if (kind < 3 && !is_locked(row))
        return row_unit(row);
    return array_unit(free_address(), bytes);
}

/* An erase of it is not barred. Of more than a block that is a chip erase. */
static bool is_free(const struct unit *unit)
{
    if (unit->of_rows)
        return !is_locked(unit->at / REF_PAGE);
    return unit->bytes > REF_BLOCK ? (status & BP_BITS) == 0 : !is_protected(unit->at);
}

static void start_chip_erase(struct write *erase)
{
    erase->unit = array_unit(0, array_bytes());
    erase->length = 0;
    add(erase, one_in(2) ? 0xC7 : 0x60);
}

/* Any place of the unit, or the first or the last one. */
static uint32_t any_place(const struct unit *unit)
{
    if (one_in(2))
        return unit->at + below(unit->bytes);
    return unit->at + (one_in(2) ? 0 : unit->bytes - 1);
}

static void start_array_erase(struct write *erase, const struct unit *unit)
{
    const struct array_command *command;

    do
        command = &array_erases[below(COUNT(array_erases))];
    while (command->bytes != unit->bytes);
    start_in_array(erase, command, any_place(unit));
}

/* A chip erase reaches the only block of a part of one block too. */
void draw_erase_of(struct write *erase, const struct unit *unit)
{
    bool by_chip = unit->bytes == array_bytes() && (status & BP_BITS) == 0;

    if (unit->of_rows)
        start_in_rows(erase, 0x64, unit->at / REF_PAGE, any_byte());
    else if (unit->bytes > REF_BLOCK || (by_chip && one_in(2)))
        start_chip_erase(erase);
    else
        start_array_erase(erase, unit);
    erase->ticks = erase->unit.bytes / REF_PAGE;
}

void draw_erase(struct write *erase)
{
    struct unit unit = any_erase_unit();

    draw_erase_of(erase, &unit);
    use(&unit);
}

/* ---- Calls on one of the parts ---- */

void is_result(const struct call *call, uint64_t expected, uint64_t got)
{
    if (got != expected)
        fail_result(call, expected, got);
}

void command_is(const struct side *side, const void *bytes, size_t length, uint64_t number)
{
    struct call call = fitting(TRANSACT);

    memcpy(message, bytes, length);
    call.input = call.output = length;
    call.wp_high = below(2);
    prepare(&call);
    is_result(&call, number + 256 * length, call_model(side, &call));
}

void executed(const struct side *side, const void *bytes, size_t length)
{
    command_is(side, bytes, length, 0);
}

uint64_t leaving_record(const struct side *side, const struct call *call)
{
    uint8_t before[YAWLSPAR_RECORD_BYTES];
    uint64_t result;

    memcpy(before, side->record, sizeof before);
    prepare(call);
    result = call_model(side, call);
    if (memcmp(side->record, before, sizeof before) != 0)
        fail(call, "whether the record changed", 0, 1);
    return result;
}

struct call any_transaction(void)
{
    struct call call = fitting(TRANSACT);
    size_t i;

    call.input = call.output = between(1, one_in(20) ? REF_MOST : 12);
    call.wp_high = below(2);
    for (i = 0; i < call.input; i++)
        message[i] = any_byte();
    return call;
}

static struct call any_read(void)
{
    static const uint8_t codes[] = {0x03, 0x0B, 0x05, 0x48, 0x9F, 0x90, 0xAB, 0x68, 0x81, 0x13, 0x0C, 0x16, 0xC8};
    const size_t large_codes = 4; /* the last ones */
    struct call call = any_transaction();

    message[0] = pick_byte(codes, is_large() ? COUNT(codes) : COUNT(codes) - large_codes);
    if (one_in(2)) { /* a row's address */
        message[1] = 0x00;
        message[2] = (uint8_t)(below(4) * 0x10);
    }
    return call;
}

/* A read, executed or not. */
static void read_aside(const struct side *side)
{
    struct call call = any_read();
    uint64_t result = leaving_record(side, &call);

    if (is_refusal(result))
        fail(&call, "whether a read is refused", 0, 1);
}

static void too_many_ticks(const struct side *side)
{
    struct call call = fitting(TICK);

    call.ticks = one_in(2) ? ticks_most() + between(1, 4096) : UINT64_MAX - below(4096);
    is_result(&call, YAWLSPAR_BAD_TICKS, leaving_record(side, &call));
}

static void output_of_another_length(const struct side *side)
{
    struct call call = one_in(2) ? any_read() : any_transaction();

    call.output += one_in(2) ? 1 : -1;
    is_result(&call, YAWLSPAR_BAD_OUTPUT, leaving_record(side, &call));
}

void refused(const struct side *side)
{
    if (one_in(2))
        too_many_ticks(side);
    else
        output_of_another_length(side);
}

void pass(const struct side *side, uint32_t ticks, uint32_t worked)
{
    struct call call = fitting(TICK);

    call.ticks = ticks;
    is_result(&call, 256 * (uint64_t)worked, worked == 0 ? leaving_record(side, &call) : call_model(side, &call));
}

void look_aside(const struct side *side)
{
    if (one_in(4))
        refused(side);
    else
        read_aside(side);
}

/* Any number of calls that change nothing while the part is idle. */
static void check(const struct side *side)
{
    while (!one_in(3)) {
        if (one_in(4))
            pass(side, below(ticks_most() + 1), 0);
        else
            look_aside(side);
    }
}

/* How many ticks to ask for while so many are left. */
static uint32_t some_ticks(uint32_t left)
{
    uint32_t more = left + below(20);

    switch (below(8)) {
    case 0:
        return below(3);
    case 1:
    case 2:
        return below(left + 1);
    case 3:
        return ticks_most();
    default:
        return more < ticks_most() ? more : ticks_most();
    }
}

void wait_for(const struct side *side, uint32_t left)
{
    uint32_t asked, worked;

    for (; left > 0; left -= worked) {
        while (one_in(3))
            look_aside(side);
        asked = some_ticks(left);
        worked = asked < left ? asked : left;
        pass(side, asked, worked);
    }
    check(side);
}

void is_idle(const struct side *side)
{
    struct call call = fitting(TRANSACT);

    memcpy(message, "\x05\x00", 2);
    call.input = call.output = 2;
    is_result(&call, 256, leaving_record(side, &call));
    if ((side->output[1] & (WIP | WEL)) != 0)
        fail(&call, "WIP and WEL of an idle part", 0, side->output[1] & (WIP | WEL));
}

/* ---- A write ---- */

/* The same part, with its record copied there. */
static struct side copied(const struct side *side, uint8_t *record)
{
    struct side copy = *side;

    memcpy(record, side->record, YAWLSPAR_RECORD_BYTES);
    copy.record = record;
    return copy;
}

/* Asks for no ticks first. */
static void record_is(const struct side *side, const uint8_t *record, const char *what)
{
    struct call call = fitting(TICK);

    pass(side, 0, 0);
    if (memcmp(side->record, record, YAWLSPAR_RECORD_BYTES) != 0)
        fail(&call, what, 0, 1);
}

void begin(const struct side *side, const struct write *write)
{
    executed(side, "\x06", 1);
    check(side);
    executed(side, write->bytes, write->length);
}

/* The record is that which 04h would have left: WEL 0, not armed, and else as it was. */
void written(const struct side *side, const struct write *write)
{
    uint8_t disabled[YAWLSPAR_RECORD_BYTES];
    struct side copy = copied(side, disabled);

    executed(&copy, "\x04", 1);
    begin(side, write);
    wait_for(side, write->ticks);
    is_idle(side);
    record_is(side, disabled, "whether a write leaves another record than 04h");
}

/* ---- The parts ---- */

static void draw_registers(void)
{
    uint32_t status_bits = one_in(3) ? 0xFC & ~BP_BITS : 0xFC;

    function = any_byte() & any_byte() & 0xF0;
    if (is_large() && one_in(2))
        function |= TBS;
    do
        status = (uint8_t)(any_byte() & status_bits);
    while (yawlspar_protected_count(protection_code(), blocks) == blocks);
    extended = any_byte() & 0xE0;
}

static void draw_identity(void)
{
    maker = any_byte();
    type = any_byte();
    capacity = any_byte();
    device = any_byte();
}

static void power_up(const struct side *side)
{
    struct call call = fitting(POWER_UP);

    call.maker = maker;
    call.type = type;
    call.capacity = capacity;
    call.device = device;
    call.status = status;
    call.function = function;
    call.extended = extended;
    is_result(&call, 0, call_model(side, &call));
    bank = 0;
}

void power_up_again(const struct unit *unit)
{
    if (one_in(2)) {
        do
            draw_registers();
        while (!is_free(unit));
    }
    power_up(one);
}

void finish_reset(void)
{
    uint8_t fresh[YAWLSPAR_RECORD_BYTES];
    struct side copy = copied(one, fresh);

    executed(one, "\x99", 1);
    power_up(&copy);
    record_is(one, fresh, "whether a reset leaves another record than a power-up");
}

/* Sets the error bits, where something is barred. */
static void fail_writes(void)
{
    uint32_t row = below(4);
    const uint8_t row_program[] = {0x62, 0x00, (uint8_t)(row * 0x10), 0x00, 0x00};

    executed(one, "\x06", 1);
    if ((status & BP_BITS) != 0)
        command_is(one, "\xC7", 1, YAWLSPAR_PROTECTED);
    if (is_locked(row))
        command_is(one, row_program, sizeof row_program, YAWLSPAR_PROTECTED);
}

static void write_bank(void)
{
    uint8_t byte = any_byte();
    const uint8_t bank_write[] = {one_in(2) ? 0x17 : 0xC5, byte};

    executed(one, bank_write, sizeof bank_write);
    bank = byte & (EXTADD | 1);
}

void stir(void)
{
    const uint8_t set_live[] = {0x83, any_byte()};

    if (one_in(2))
        fail_writes();
    if (one_in(2))
        executed(one, set_live, sizeof set_live);
    if (is_large() && !one_in(4))
        write_bank();
    if (one_in(2))
        executed(one, one_in(2) ? "\x06" : "\x04", 1);
    if (one_in(2))
        executed(one, "\x66", 1);
}

void make_parts(void)
{
    blocks = (uint32_t)fitting(TICK).blocks;
    used_count = 0;
    draw_identity();
    draw_registers();
    power_up(one);
    stir();
    memcpy(other->record, one->record, YAWLSPAR_RECORD_BYTES);
}

void same_stored(void)
{
    struct call call = fitting(TICK);
    size_t i;

    pass(one, 0, 0);
    pass(other, 0, 0);
    same_memory_in_part(&call);
    for (i = 0; i < used_count; i++)
        same_unit(&used[i]);
}

void same_parts(void)
{
    struct call call = fitting(TICK);

    same_stored();
    same_record(&call);
}

/* ---- Ways on a blank part ---- */

void one_way(const char *name, uint32_t size)
{
    begin_run(name, 0, size);
    memset(model.array, 0xFF, size * REF_BLOCK);
    memset(reference.array, 0xFF, size * REF_BLOCK);
    powered(size);
    runs++;
}

void ends_with(uint32_t address, const void *bytes, size_t count)
{
    const uint8_t read[12] = {0x03, 0x00, (uint8_t)(address >> 8), (uint8_t)address};
    const uint8_t *expected = bytes;
    size_t i;

    sent(read, 4 + count, 0, 4);
    for (i = 0; i < count; i++)
        output_is(4 + i, expected[i]);
}

void program_is(uint32_t address, const void *data, size_t count, uint64_t number)
{
    uint8_t bytes[REF_MOST] = {0x02, 0x00, (uint8_t)(address >> 8), (uint8_t)address};

    memcpy(bytes + 4, data, count);
    command("\x06", 1, 0);
    command(bytes, 4 + count, number);
}

void programmed(uint32_t address, const void *data, size_t count)
{
    uint64_t kept = count < REF_PAGE ? count : REF_PAGE;

    program_is(address, data, count, 0);
    ticked(kept, 0, kept);
}

void first_sector_begun(uint64_t ticks)
{
    command("\x06", 1, 0);
    command("\xD7\x00\x00\x00", 4, 0);
    ticked(ticks, 0, ticks);
}

void first_sector_erased(void)
{
    first_sector_begun(16);
}
