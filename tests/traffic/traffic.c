/* Made-up traffic: see traffic.h. */
#include "traffic.h"

#define PAGE 256u
#define BLOCK 65536u
#define LARGE 512u /* blocks of the part that has the bank address register and the four-byte codes */
#define BANK 0x1000000u
#define EXTADD 0x80u
#define HOT_PAGES 4u

enum mood { DRIVING, GUARDING, ROWING, PAUSING, STUMBLING, MOODS };

static struct limits limits;
static uint8_t locks;

static enum mood mood;
static uint32_t hot[HOT_PAGES]; /* pages, as addresses */
static uint32_t strange_one_in; /* how rare a strange thing between two steps is */
static uint32_t low_one_in;     /* how rare a low pin is */

static uint8_t believed; /* the bank address register, as the driver remembers it */

static bool is_large(void)
{
    return limits.blocks == LARGE;
}

uint32_t traffic_ticks_most(void)
{
    return is_large() ? 131072 : 4096;
}

static uint32_t lesser(uint32_t a, uint32_t b)
{
    return a < b ? a : b;
}

/* ---- Steps ---- */

static uint8_t message[TRAFFIC_MOST];
static uint32_t length; /* of the message */

static void between_steps(void)
{
    if (one_in(strange_one_in))
        traffic_strange();
}

static void start(uint8_t code)
{
    message[0] = code;
    length = 1;
}

static void add(uint8_t byte)
{
    if (length < limits.message_most) {
        message[length] = byte;
        length++;
    }
}

static void add_any(uint32_t count)
{
    for (; count > 0; count--)
        add(any_byte());
}

static void add_address(uint32_t address)
{
    add((uint8_t)(address >> 16));
    add((uint8_t)(address >> 8));
    add((uint8_t)address);
}

/* What the driver remembers of the bank address register once the message is sent. */
static void remember(void)
{
    if ((message[0] == 0x17 || message[0] == 0xC5) && length == 2)
        believed = message[1] & (EXTADD | 1);
    else if (message[0] == 0xB7 && length == 1)
        believed |= EXTADD;
    else if (message[0] == 0x29 && length == 1)
        believed &= 1;
    else if (message[0] == 0x99 && length == 1)
        believed = 0;
}

static void send_at(bool wp_high)
{
    between_steps();
    traffic_send(wp_high, message, length);
    if (is_large())
        remember();
}

static void send(void)
{
    send_at(!one_in(low_one_in));
}

void send_code(uint8_t code)
{
    start(code);
    send();
}

static void send_two(uint8_t code, uint8_t second)
{
    start(code);
    add(second);
    send();
}

static void ticks(uint32_t n)
{
    between_steps();
    traffic_wait(n);
}

static void some_ticks(void)
{
    uint32_t kind = below(20);

    if (kind < 15)
        ticks(below(21));
    else if (kind < 19)
        ticks(between(21, 300));
    else
        ticks(between(4000, 4096));
}

/* ---- Addresses and lengths ---- */

/* Addresses as they are sent in three bytes, or in four to the large part. */
static uint32_t address_mask(void)
{
    return is_large() ? 2 * BANK - 1 : BANK - 1;
}

static uint32_t any_address(void)
{
    return below(address_mask() + 1);
}

/* The end of the array, or of that of a smaller part, or of the large part's first bank. */
static uint32_t array_end(void)
{
    static const uint8_t sizes[] = {1, 4, 8, 16};
    uint32_t size = one_in(2) ? limits.blocks : pick_byte(sizes, COUNT(sizes));

    if (is_large())
        return one_in(2) ? BANK : 2 * BANK;
    return lesser(size, limits.blocks) * BLOCK;
}

/* A block of the large part: often one beside the ends of a bank, or beside what a protection code protects. */
static uint32_t large_block(void)
{
    static const uint16_t ends[] = {0, BANK / BLOCK - 1, BANK / BLOCK, LARGE - 1};
    uint32_t many = 1u << below(9);

    switch (below(4)) {
    case 0:
        return below(LARGE);
    case 1: /* the last of the bottom ones, or the first that is none of them */
        return many - below(2);
    case 2: /* the same at the top */
        return LARGE - many - below(2);
    default:
        return ends[below(COUNT(ends))];
    }
}

static uint32_t any_block(void)
{
    if (is_large())
        return large_block();
    return one_in(3) ? limits.blocks - 1 : below(limits.blocks);
}

static uint32_t border_address(void)
{
    static const uint16_t places[] = {0x0000, 0x0001, 0x00FF, 0x0100, 0x0FFF, 0x1000, 0x7FFF,
                                      0x8000, 0xEFFF, 0xF000, 0xFEFF, 0xFF00, 0xFFFE, 0xFFFF};

    return any_block() * BLOCK + places[below(COUNT(places))];
}

static uint32_t hot_address(void)
{
    static const uint8_t places[] = {0x00, 0x01, 0x7F, 0x80, 0xC8, 0xFE, 0xFF};
    uint8_t place = one_in(3) ? any_byte() : pick_byte(places, COUNT(places));

    return hot[below(HOT_PAGES)] + place;
}

static uint32_t address(void)
{
    uint32_t kind = below(20);

    if (kind < 12)
        return hot_address();
    if (kind < 14) /* the same place, past the array's end */
        return (hot_address() + below(16) * limits.blocks * BLOCK) & address_mask();
    if (kind < 18)
        return border_address();
    return any_address();
}

/* A row address, as sent. */
static uint32_t row_address(void)
{
    static const uint8_t places[] = {0x00, 0x01, 0xFE, 0xFF};
    uint8_t place = one_in(3) ? any_byte() : pick_byte(places, COUNT(places));

    return below(4) * 0x1000u + place;
}

static uint32_t wrong_row_address(void)
{
    switch (below(4)) {
    case 0:
        return row_address() + 0x100u * between(1, 15);
    case 1:
        return row_address() + 0x10000u * between(1, 255);
    case 2:
        return row_address() + 0x1000u * between(4, 12);
    default:
        return any_address();
    }
}

/* The codes that take four address bytes always. Each does what the code below it does. */
static const uint8_t four_byte_codes[] = {0x13, 0x0C, 0x12, 0x21, 0x21, 0x5C, 0xDC};
static const uint8_t either_codes[] = {0x03, 0x0B, 0x02, 0xD7, 0x20, 0x52, 0xD8};

static bool takes_four_always(uint8_t code)
{
    size_t i;

    for (i = 0; i < COUNT(four_byte_codes); i++)
        if (four_byte_codes[i] == code)
            return true;
    return false;
}

/* Such a code in the place of one that takes three or four: on the large part often, elsewhere rarely, where the
 * part does not know it. */
static uint8_t or_four_bytes(uint8_t code)
{
    size_t i = 0;

    if (!one_in(is_large() ? 3 : 60))
        return code;
    while (either_codes[i] != code)
        i++;
    return four_byte_codes[i];
}

/* Selects the bank of the address, where the driver has to for a code that takes three bytes now. */
static void select_bank(uint8_t code, uint32_t at)
{
    uint8_t bank = at < BANK ? 0 : 1;

    if (!is_large() || takes_four_always(code) || (believed & EXTADD) != 0 || believed == bank || one_in(12))
        return;
    send_two(one_in(2) ? 0xC5 : 0x17, bank);
}

/* Starts a message that has an address of the array: in four bytes for the codes that take four always, and for the
 * others if the driver remembers EXTADD set. Now and then it is mistaken, and is off by a byte. The bits above the
 * large part's are sent as they come, at times. */
static void start_at(uint8_t code, uint32_t at)
{
    bool four = takes_four_always(code) || (believed & EXTADD) != 0;

    select_bank(code, at);
    if (is_large() && one_in(40))
        four = !four;
    start(code);
    if (four)
        add((uint8_t)(at >> 24 | (one_in(6) ? any_byte() & 0xFEu : 0)));
    add_address(at);
}

/* How many bytes to add to the message: mostly up to `usual`, now and then up to all that it may have. */
static uint32_t some_length(uint32_t usual)
{
    return between(1, one_in(limits.long_one_in) ? limits.message_most - length : usual);
}

/* How many data bytes a program sends after its address. */
static uint32_t data_length(void)
{
    static const uint16_t lengths[] = {1, 16, 100, 255, 256, 257, 300, 511, 512, 513};
    uint32_t most = limits.message_most - length;

    if (one_in(2 * limits.long_one_in))
        return most - below(2);
    if (one_in(8))
        return lesser(lengths[below(COUNT(lengths))], most);
    return some_length(20);
}

/* ---- Pieces of scenes ---- */

static void read_register(uint8_t code)
{
    start(code);
    add_any(one_in(6) ? below(6) : 1);
    send();
}

/* Looks for WIP, which the status and the extended read register show. */
static void poll(void)
{
    read_register(one_in(4) ? 0x81 : 0x05);
}

/* Looks what runs and what is suspended: WIP, WEL, ESUS and PSUS. */
static void see_phase(void)
{
    read_register(0x05);
    read_register(0x48);
}

/* Looks why a write did nothing, and at times clears what is told. */
static void see_errors(void)
{
    read_register(0x81);
    if (one_in(4))
        send_code(0x82);
}

/* Waits for an operation of so many ticks, as drivers do; at times not long enough. */
static void wait(uint32_t needed)
{
    uint32_t round, rounds = between(2, 5);

    switch (below(8)) {
    case 0: /* one short, then the last */
        ticks(needed - 1);
        poll();
        ticks(1);
        break;
    case 1: /* a few rounds */
        for (round = 0; round < rounds; round++) {
            ticks(needed / rounds + 1);
            poll();
        }
        break;
    case 2: /* more than are needed */
        ticks(lesser(needed + below(20), traffic_ticks_most()));
        break;
    case 3:
        ticks(traffic_ticks_most());
        break;
    case 4:
        some_ticks();
        break;
    default:
        ticks(needed);
        break;
    }
    if (one_in(3))
        poll();
}

/* Adds bytes with many ones, so that a page takes several programs. */
static void add_data(uint32_t count)
{
    uint8_t first = any_byte();
    uint32_t kind = below(4), i;

    for (i = 0; i < count; i++) {
        if (kind == 0)
            add((uint8_t)(first + i));
        else if (kind == 1)
            add(any_byte());
        else
            add(any_byte() | any_byte());
    }
}

static void start_read(uint32_t from)
{
    start_at(or_four_bytes(one_in(2) ? 0x03 : 0x0B), from);
}

static void read_at(uint32_t from)
{
    start_read(from);
    add_any(some_length(20));
    send();
}

static void write_enable(void)
{
    if (!one_in(16))
        send_code(0x06);
}

static const uint8_t chip_erases[] = {0xC7, 0x60};
static const uint8_t suspends[] = {0x75, 0xB0};
static const uint8_t resumes[] = {0x7A, 0x30};

/* Sends a program of a page or of a row; gives its ticks. */
static uint32_t send_program(uint8_t code, uint32_t at)
{
    uint32_t count;

    if (code == 0x02) {
        start_at(or_four_bytes(code), at);
    } else {
        start(code);
        add_address(at);
    }
    count = data_length();
    add_data(count);
    send();
    return lesser(count, PAGE);
}

/* Sends an erase of a sector, half a block or a block; gives its ticks, which are the pages of its unit. */
static uint32_t send_erase(uint32_t at)
{
    static const struct {
        uint8_t code;
        uint16_t ticks;
    } erases[] = {{0xD7, 16}, {0x20, 16}, {0xD7, 16}, {0x20, 16}, {0x52, 128}, {0xD8, 256}};
    uint32_t which = below(COUNT(erases));

    start_at(or_four_bytes(erases[which].code), at);
    send();
    return erases[which].ticks;
}

/* Sends a program or an erase of the array; gives its ticks. */
static uint32_t send_change(uint32_t at)
{
    return one_in(2) ? send_program(0x02, at) : send_erase(at);
}

/* A status byte: the protection codes of the whole range, SRWD and QE now and then. */
static uint8_t status_value(void)
{
    uint32_t code = one_in(3) ? 15 * below(2) : below(16);

    return (uint8_t)(code << 2 | (one_in(4) ? 0x80 : 0) | (one_in(4) ? 0x40 : 0) | below(4));
}

/* Sends a register write, with write enable before it. */
static void send_write(bool wp_high, uint8_t code, uint8_t value)
{
    start(0x06);
    send_at(wp_high);
    start(code);
    add(value);
    send_at(wp_high);
}

static void write_status(uint8_t value)
{
    send_write(true, 0x01, value);
    ticks(1);
}

/* Code 15 protects no block, but all of the large part. */
void unprotect(void)
{
    write_status(one_in(4) && !is_large() ? 0x3C : 0x00);
}

/* A byte for the bank address register. */
static uint8_t bank_value(void)
{
    static const uint8_t values[] = {0x00, 0x01, 0x80, 0x81};

    return one_in(6) ? any_byte() : pick_byte(values, COUNT(values));
}

static void read_bank(void)
{
    read_register(one_in(2) ? 0x16 : 0xC8);
}

/* Sets EXTADD or clears it, or writes the whole register. */
static void send_mode(void)
{
    switch (below(4)) {
    case 0:
        send_code(0xB7);
        break;
    case 1:
        send_code(0x29);
        break;
    default:
        send_two(one_in(2) ? 0x17 : 0xC5, bank_value());
        break;
    }
}

/* ---- Scenes ---- */

static void wake_and_reset(void)
{
    send_code(0xAB);
    send_code(0x66);
    send_code(0x99);
    if (one_in(2))
        unprotect();
}

static void program_scene(void)
{
    uint32_t at = address(), programs = between(1, 3);

    for (; programs > 0; programs--) {
        write_enable();
        wait(send_program(0x02, at));
        read_at(one_in(4) ? at - below(4) : at);
    }
}

static void erase_scene(void)
{
    uint32_t at = address();

    write_enable();
    wait(send_erase(at));
    read_at(at);
    if (one_in(4))
        read_at(border_address());
}

/* On the large part it is mostly cut short, for its 131,072 ticks take their time. */
static void chip_erase_scene(void)
{
    write_enable();
    send_code(pick_byte(chip_erases, COUNT(chip_erases)));
    if (one_in(4))
        poll();
    if (one_in(5)) {
        ticks(below(40));
        send_code(pick_byte(suspends, COUNT(suspends)));
    }
    if (is_large() && !one_in(4)) {
        ticks(one_in(3) ? between(0, 70000) : below(300));
        send_code(0x66);
        send_code(0x99);
    } else {
        wait(limits.blocks * 256);
    }
    read_at(hot_address());
}

/* A read that runs on past the end to address 0. */
static void read_over_end(void)
{
    uint32_t back = between(1, one_in(limits.long_one_in) ? limits.message_most / 2 : 20);

    start_read(array_end() - back);
    add_any(1 + back + below(20));
    send();
}

static void status_scene(void)
{
    write_enable();
    send_two(0x01, status_value());
    wait(1);
    poll();
}

static void function_scene(void)
{
    write_enable();
    send_two(0x42, any_byte() & (locks | 0x0F));
    wait(1);
    send_two(0x48, any_byte());
}

/* Sets the volatile byte, or the stored one, which shows after a reset. */
static void extended_scene(void)
{
    if (one_in(2)) {
        send_two(0x83, any_byte());
    } else {
        write_enable();
        send_two(0x85, any_byte());
        if (one_in(4))
            send_code(pick_byte(suspends, COUNT(suspends)));
        if (!one_in(4))
            wait(1);
    }
    see_errors();
    if (one_in(2)) {
        send_code(0x66);
        send_code(0x99);
        read_register(0x81);
    }
}

/* A chip erase, at times between arming and reset. */
static void disarming_erase(void)
{
    bool reset = one_in(3);

    if (reset)
        send_code(0x66);
    send_code(pick_byte(chip_erases, COUNT(chip_erases)));
    if (reset)
        send_code(0x99);
}

static void guard_scene(void)
{
    uint32_t tries = between(2, 6);

    write_status(status_value() & 0x7F);
    for (; tries > 0; tries--) {
        uint32_t at = one_in(2) ? border_address() : address();

        write_enable();
        if (one_in(6))
            disarming_erase();
        else
            wait(send_change(at));
        if (!one_in(4))
            see_errors();
        if (one_in(2))
            read_at(at);
    }
    if (!one_in(4))
        unprotect();
}

static void pin_scene(void)
{
    write_status(0x80 | status_value());
    send_write(one_in(4), one_in(6) ? 0x85 : 0x01, status_value());
    wait(1);
    poll();
    if (one_in(2))
        see_errors();
    if (!one_in(5))
        unprotect();
}

static void row_scene(void)
{
    uint32_t at = row_address();

    write_enable();
    if (one_in(3)) {
        start(0x64);
        add_address(at);
        send();
        wait(1);
    } else {
        wait(send_program(0x62, at));
    }
    if (one_in(2))
        see_errors();
    start(0x68);
    add_address(at);
    add_any(1 + some_length(one_in(4) ? 50 : 8));
    send();
}

/* Any command of the table, in its right form. */
static void well_formed(uint8_t code)
{
    start(code);
    switch (code) {
    case 0x05: case 0x48: case 0x81: case 0x9F: case 0xAB:
        add_any(below(8));
        break;
    case 0x90:
        add_any(3 + below(6));
        break;
    case 0x03: case 0x13:
        start_at(code, address());
        add_any(below(10));
        break;
    case 0x0B: case 0x0C:
        start_at(code, address());
        add_any(1 + below(10));
        break;
    case 0x68:
        add_address(row_address());
        add_any(1 + below(10));
        break;
    case 0x01:
        add(status_value());
        break;
    case 0x42:
        add(any_byte() & 0x0F);
        break;
    case 0x83: case 0x85:
        add(any_byte());
        break;
    case 0x02: case 0x12:
        start_at(code, address());
        add_data(data_length());
        break;
    case 0x62:
        add_address(row_address());
        add_data(data_length());
        break;
    case 0x64:
        add_address(row_address());
        break;
    case 0xD7: case 0x20: case 0x52: case 0xD8: case 0x21: case 0x5C: case 0xDC:
        start_at(code, address());
        break;
    case 0x16: case 0xC8:
        add_any(below(5));
        break;
    case 0x17: case 0xC5:
        add(bank_value());
        break;
    default: /* the code alone */
        break;
    }
}

static const uint8_t codes[] = {0x03, 0x0B, 0x05, 0x48, 0x9F, 0x90, 0xAB, 0x68, 0x06, 0x04,
                                0x01, 0x42, 0x02, 0xD7, 0x20, 0x52, 0xD8, 0xC7, 0x60, 0x75,
                                0xB0, 0x7A, 0x30, 0xB9, 0x66, 0x99, 0x64, 0x62, 0x81, 0x82,
                                0x83, 0x85};

/* Those that only the large part has. */
static const uint8_t large_codes[] = {0x16, 0xC8, 0x17, 0xC5, 0xB7, 0x29, 0x13, 0x0C, 0x12, 0x21, 0x5C, 0xDC};

static const uint8_t write_codes[] = {0x01, 0x42, 0x02, 0xD7, 0x20, 0x52,
                                      0xD8, 0xC7, 0x60, 0x64, 0x62, 0x85};
static const uint8_t large_write_codes[] = {0x12, 0x21, 0x5C, 0xDC};

static uint8_t any_code(void)
{
    if (one_in(is_large() ? 3 : 20))
        return pick_byte(large_codes, COUNT(large_codes));
    return pick_byte(codes, COUNT(codes));
}

static uint8_t any_write_code(void)
{
    if (one_in(is_large() ? 4 : 40))
        return pick_byte(large_write_codes, COUNT(large_write_codes));
    return pick_byte(write_codes, COUNT(write_codes));
}

static void send_well_formed(uint8_t code)
{
    well_formed(code);
    send();
}

static void any_commands(uint32_t count)
{
    for (; count > 0; count--)
        send_well_formed(any_code());
}

static void suspend_scene(void)
{
    uint32_t at = address(), needed, rounds = between(1, 4);

    write_enable();
    needed = send_change(at);
    for (; rounds > 0; rounds--) {
        ticks(below(needed > 16 && one_in(2) ? needed : 16));
        send_code(pick_byte(suspends, COUNT(suspends)));
        send_two(0x48, any_byte());
        if (one_in(3))
            see_errors();
        read_at(at);
        if (one_in(3))
            some_ticks();
        if (one_in(2))
            any_commands(between(1, 4));
        if (!one_in(8))
            send_code(pick_byte(resumes, COUNT(resumes)));
    }
    wait(needed);
    read_at(at);
}

static void sleep_scene(void)
{
    send_code(0xB9);
    any_commands(below(5));
    if (one_in(4))
        some_ticks();
    if (!one_in(5))
        send_well_formed(0xAB);
    poll();
}

static void reset_scene(void)
{
    uint32_t at = address();

    if (one_in(2)) {
        write_enable();
        ticks(below(send_change(at)));
        if (one_in(3))
            send_code(pick_byte(suspends, COUNT(suspends)));
    }
    send_code(0x66);
    if (one_in(6))
        any_commands(1);
    if (one_in(6))
        some_ticks();
    send_code(0x99);
    if (one_in(4))
        send_code(0x99);
    poll();
    if (one_in(2))
        see_errors();
    read_at(at);
}

static void identity_scene(void)
{
    send_well_formed(0x9F);
    send_well_formed(0x90);
    send_well_formed(0xAB);
}

/* ---- What drivers do wrong ---- */

/* A command of the table with some bytes too few or too many. */
static void wrong_length(void)
{
    well_formed(any_code());
    if (one_in(2) && length > 1)
        length = length > 4 && one_in(2) ? 4 : 1 + below(lesser(length - 1, 4));
    else
        add_any(between(1, 3));
    send();
}

static void wrong_row(void)
{
    static const uint8_t row_codes[] = {0x68, 0x64, 0x62};
    uint8_t code = pick_byte(row_codes, COUNT(row_codes));

    write_enable();
    start(code);
    add_address(wrong_row_address());
    if (code != 0x64)
        add_any(1 + below(6));
    send();
}

static void not_enabled(void)
{
    send_code(0x04);
    send_well_formed(any_write_code());
}

/* While the part is busy with whatever a write command begins. */
static void while_busy(void)
{
    write_enable();
    send_well_formed(any_write_code());
    any_commands(between(1, 6));
    wait(between(1, 300));
}

static void unknown_code(void)
{
    start(any_byte());
    if (!one_in(6))
        add_any(some_length(5));
    send();
}

static void any_miss(void)
{
    switch (below(8)) {
    case 0:
        wrong_row();
        break;
    case 1:
        not_enabled();
        break;
    case 2:
        while_busy();
        break;
    case 3:
        unknown_code();
        break;
    default:
        wrong_length();
        break;
    }
}

static void miss_scene(void)
{
    uint32_t count = between(1, 3);

    for (; count > 0; count--)
        any_miss();
}

static void strange_scene(void)
{
    uint32_t count = between(1, 4);

    for (; count > 0; count--)
        traffic_strange();
}

/* ---- Both banks, and both address lengths ---- */

/* The driver goes to the other bank or address length, and looks and works there. */
static void mode_scene(void)
{
    uint32_t rounds = between(1, 3);

    for (; rounds > 0; rounds--) {
        send_mode();
        if (one_in(2))
            read_bank();
        if (one_in(3))
            read_at(hot_address());
        if (one_in(4)) {
            uint32_t at = hot_address();

            write_enable();
            wait(send_change(at));
            read_at(at);
        }
    }
}

/* The same place by each address length, and in each bank. */
static void both_banks_scene(void)
{
    uint32_t at = address(), rounds = between(1, 4);

    for (; rounds > 0; rounds--) {
        if (one_in(2))
            send_mode();
        read_at(one_in(2) ? at : (at ^ BANK) & address_mask());
    }
}

/* What a driver does when it changes the mode at the wrong time: busy, suspended, asleep, between arming and reset. */
static void untimely_mode_scene(void)
{
    uint32_t at = address();

    switch (below(5)) {
    case 0:
        write_enable();
        send_change(at);
        send_mode();
        read_bank();
        wait(256);
        break;
    case 1:
        write_enable();
        send_change(at);
        send_code(pick_byte(suspends, COUNT(suspends)));
        send_mode();
        read_bank();
        send_code(pick_byte(resumes, COUNT(resumes)));
        wait(256);
        break;
    case 2:
        send_code(0xB9);
        send_mode();
        read_bank();
        send_code(0xAB);
        break;
    case 3:
        send_code(0x66);
        send_mode();
        send_code(0x99);
        break;
    default: /* a reset, after which the driver remembers no mode at times */
        send_code(0x66);
        send_code(0x99);
        if (one_in(3))
            believed = bank_value() & (EXTADD | 1);
        break;
    }
    read_bank();
    read_at(at);
}

/* ---- Programs during erase suspend ---- */

/* An address in the unit of so many pages that holds `at`: often in its first or last page. */
static uint32_t in_unit(uint32_t at, uint32_t pages)
{
    uint32_t base = at - at % (pages * PAGE), place = below(PAGE);

    switch (below(4)) {
    case 0:
        return base + place;
    case 1:
        return base + (pages - 1) * PAGE + place;
    default:
        return base + below(pages) * PAGE + place;
    }
}

/* An address that is mostly outside of that unit: often in the page before it or after it. */
static uint32_t off_unit(uint32_t at, uint32_t pages)
{
    uint32_t base = at - at % (pages * PAGE), place = below(PAGE);

    switch (below(4)) {
    case 0:
        return (base - PAGE + place) & address_mask();
    case 1:
        return (base + pages * PAGE + place) & address_mask();
    default:
        return address();
    }
}

/* While a program runs within a suspended erase: what has to wait for its end, and what does not. */
static void disturb_inner(void)
{
    switch (below(9)) {
    case 0:
    case 1:
        send_code(pick_byte(suspends, COUNT(suspends)));
        break;
    case 2:
        send_code(pick_byte(resumes, COUNT(resumes)));
        break;
    case 3:
        send_code(one_in(2) ? 0x06 : 0x04);
        break;
    case 4:
        send_change(address());
        break;
    case 5:
        any_commands(between(1, 3));
        break;
    case 6:
        wrong_length();
        break;
    default:
        see_phase();
        break;
    }
}

static void reset_now(void)
{
    send_code(0x66);
    send_code(0x99);
    see_phase();
}

/* A program within the suspended erase of the unit that holds `at`: now and then into the unit, or cut short. */
static void inner_program(uint32_t at, uint32_t pages)
{
    uint32_t to = one_in(4) ? in_unit(at, pages) : off_unit(at, pages), needed;

    write_enable();
    if (one_in(12))
        send_code(0x04);
    needed = send_program(0x02, to);
    while (one_in(2)) {
        ticks(below(needed));
        disturb_inner();
    }
    if (one_in(20))
        reset_now();
    else if (!one_in(12))
        wait(needed);
    if (one_in(2))
        see_phase();
    if (one_in(3))
        see_errors();
    read_at(one_in(3) ? in_unit(at, pages) : to);
}

/* One thing that a driver does, or does wrong, while that erase is suspended. */
static void in_erase_suspend(uint32_t at, uint32_t pages)
{
    switch (below(16)) {
    case 0:
        send_code(one_in(3) ? 0x04 : 0x06);
        see_phase();
        break;
    case 1: /* not enabled, or left from before */
        send_program(0x02, off_unit(at, pages));
        break;
    case 2:
        send_erase(one_in(2) ? at : address());
        break;
    case 3:
        send_code(pick_byte(suspends, COUNT(suspends)));
        break;
    case 4:
        any_commands(between(1, 3));
        break;
    case 5:
        some_ticks();
        break;
    case 6:
        if (one_in(4))
            reset_now();
        break;
    case 7:
        any_miss();
        break;
    default:
        inner_program(at, pages);
        break;
    }
}

/* An erase that is suspended, at any of its ticks, for programs. */
static void nest_scene(void)
{
    uint32_t at = address(), pages, steps, rounds = between(1, 3);

    write_enable();
    pages = send_erase(at);
    for (; rounds > 0; rounds--) {
        ticks(below(one_in(3) ? pages : 6));
        send_code(pick_byte(suspends, COUNT(suspends)));
        for (steps = between(1, 4); steps > 0; steps--)
            in_erase_suspend(at, pages);
        if (one_in(4)) /* resumed with WEL 1 */
            send_code(0x06);
        if (!one_in(8))
            send_code(pick_byte(resumes, COUNT(resumes)));
        if (one_in(2))
            see_phase();
    }
    wait(pages);
    read_at(in_unit(at, pages));
}

/* ---- The traffic ---- */

struct scene {
    void (*play)(void);
    uint8_t weights[MOODS]; /* driving, guarding, rowing, pausing, stumbling */
    bool large;             /* for the large part alone */
};

static const struct scene scenes[] = {
    {wake_and_reset, {6, 8, 6, 10, 14}, false},
    {program_scene, {24, 12, 6, 8, 8}, false},
    {erase_scene, {16, 8, 4, 6, 6}, false},
    {chip_erase_scene, {3, 4, 2, 3, 3}, false},
    {read_over_end, {4, 2, 2, 2, 2}, false},
    {status_scene, {2, 6, 2, 1, 2}, false},
    {function_scene, {2, 2, 5, 2, 2}, false},
    {extended_scene, {3, 6, 4, 3, 3}, false},
    {guard_scene, {2, 16, 2, 1, 2}, false},
    {pin_scene, {1, 10, 1, 1, 1}, false},
    {row_scene, {6, 4, 30, 3, 5}, false},
    {suspend_scene, {6, 3, 3, 20, 5}, false},
    {nest_scene, {8, 6, 3, 24, 8}, false},
    {sleep_scene, {3, 3, 3, 5, 5}, false},
    {reset_scene, {4, 4, 4, 8, 5}, false},
    {identity_scene, {4, 1, 2, 2, 2}, false},
    {miss_scene, {4, 6, 8, 6, 30}, false},
    {strange_scene, {2, 2, 2, 2, 12}, false},
    {some_ticks, {1, 1, 1, 2, 3}, false},
    {mode_scene, {14, 14, 10, 10, 12}, true},
    {both_banks_scene, {8, 2, 2, 4, 4}, true},
    {untimely_mode_scene, {3, 3, 3, 8, 8}, true},
};

static uint32_t weight(const struct scene *scene)
{
    return scene->large && !is_large() ? 0 : scene->weights[mood];
}

void play_scene(void)
{
    uint32_t all = 0, drawn;
    size_t i;

    for (i = 0; i < COUNT(scenes); i++)
        all += weight(&scenes[i]);
    drawn = below(all);
    for (i = 0; drawn >= weight(&scenes[i]); i++)
        drawn -= weight(&scenes[i]);
    scenes[i].play();
}

/* A page of the large part: mostly beside an end of a bank. */
static uint32_t large_hot_page(void)
{
    static const uint32_t ends[] = {0, BANK - PAGE, BANK, 2 * BANK - PAGE};

    if (one_in(4))
        return any_address() & ~(PAGE - 1);
    return ends[below(COUNT(ends))] ^ (one_in(2) ? 0 : PAGE << below(8));
}

static void choose_hot_pages(void)
{
    size_t i;

    hot[0] = is_large() ? large_hot_page() : below(limits.blocks * BLOCK) & ~(PAGE - 1);
    for (i = 1; i < HOT_PAGES; i++)
        hot[i] = one_in(2) ? hot[0] ^ (PAGE << below(8)) : any_address() & ~(PAGE - 1);
    if (is_large()) { /* the same place in the other bank, and another end */
        hot[2] = hot[0] ^ BANK;
        hot[3] = large_hot_page();
    }
    if (one_in(3)) { /* reads run on from the last page to the first */
        hot[1] = 0;
        hot[2] = array_end() - PAGE;
    }
}

void begin_chapter(void)
{
    mood = (enum mood)below(MOODS);
    choose_hot_pages();
    strange_one_in = mood == STUMBLING ? 5 : between(15, 60);
    low_one_in = one_in(3) ? 3 : 20;
}

void allow_locks(uint8_t bits)
{
    locks = bits & 0xF0;
}

void begin_traffic(uint64_t seed, const struct limits *given)
{
    begin_draws(seed);
    limits = *given;
    locks = 0;
    believed = 0;
}
