/* Writes that are drawn by chance: see drawn.h. */
#include "drawn.h"

#include "../traffic/draws.h"
#include "steps.h"

static const struct writers *write_by;
static bool in_script; /* the calls at hand are steps of a script */

uint32_t page_count(void)
{
    return (uint32_t)(stored_length() / REF_PAGE);
}

static void send(const void *sent, size_t length)
{
    if (in_script)
        add(sent, length, 0);
    else
        write_by->send(sent, length);
}

static void wait_for(uint32_t ticks)
{
    if (in_script)
        add_ticks(ticks < 4096 ? ticks : 4096);
    else
        write_by->wait(ticks);
}

uint32_t any_address(void)
{
    static const uint32_t pages[] = {0, 7, 8, 15, 16, 127, 128, 255};
    uint32_t block = one_in(3) ? page_count() / 256 - 1 : below(page_count() / 256);

    if (one_in(4))
        return below((uint32_t)stored_length());
    return block * REF_BLOCK + pages[below(COUNT(pages))] * REF_PAGE + (one_in(2) ? 0 : below(REF_PAGE));
}

/* Three address bytes reach the bank of the bank bit. */
static size_t put_address(uint8_t *sent, uint8_t code, uint32_t address)
{
    sent[0] = code;
    sent[1] = (uint8_t)(address >> 16);
    sent[2] = (uint8_t)(address >> 8);
    sent[3] = (uint8_t)address;
    return 4;
}

static void select_bank(uint32_t address)
{
    if (on_large())
        send(address < BANK ? "\x17\x00" : "\x17\x01", 2);
}

/* Data that is FFh, or FFh but for a byte, or any. */
static void draw_data(uint8_t *data, uint32_t count)
{
    uint32_t kind = below(4), i;

    for (i = 0; i < count; i++)
        data[i] = kind == 0 ? any_byte() : 0xFF;
    if (kind == 1)
        data[below(count)] = one_in(2) ? 0xFE : any_byte();
}

static uint32_t send_program(uint8_t code, uint32_t address)
{
    uint8_t sent[4 + 300];
    uint32_t count = one_in(3) ? between(1, 300) : between(1, 12);
    size_t head = put_address(sent, code, address);

    draw_data(sent + head, count);
    send("\x06", 1);
    send(sent, head + count);
    return count < REF_PAGE ? count : REF_PAGE;
}

/* Begins a program or an erase. Gives its ticks. */
static uint32_t begin_write(uint32_t address)
{
    static const uint8_t erases[] = {0x20, 0xD7, 0x52, 0xD8};
    uint8_t code = pick_byte(erases, COUNT(erases)), sent[4];
    size_t length = put_address(sent, code, address);

    send("\x06", 1);
    if (one_in(on_large() ? 80 : 12)) {
        send("\xC7", 1);
        return page_count();
    }
    send(sent, length);
    return code == 0x52 ? 128 : code == 0xD8 ? 256 : REF_SECTOR / REF_PAGE;
}

/* A row or a register: no page is reached. */
static uint32_t write_beside(void)
{
    uint8_t sent[4];

    if (one_in(2))
        return send_program(0x62, below(4) * 0x1000 + below(REF_PAGE));
    send("\x06", 1);
    if (one_in(3)) {
        send("\x01\x40", 2);
        return 1;
    }
    send(sent, put_address(sent, 0x64, below(4) * 0x1000));
    return 1;
}

static uint32_t draw_write(void)
{
    uint32_t address = any_address();

    if (one_in(6))
        return write_beside();
    select_bank(address);
    return one_in(2) ? send_program(0x02, address) : begin_write(address);
}

/* Suspended, perhaps with a program within, and perhaps resumed. */
static void pause(void)
{
    uint32_t address = any_address();

    send("\x75", 1);
    wait_for(below(3));
    if (one_in(2)) {
        if (!on_large() || address < BANK)
            wait_for(send_program(0x02, address) - below(2));
        if (one_in(4))
            wait_for(REF_PAGE);
    }
    if (!one_in(6))
        send("\x7A", 1);
}

static void cut(void)
{
    send("\x66", 1);
    wait_for(below(3));
    send("\x99", 1);
}

/* Between two pieces of an operation. */
static void come_between(void)
{
    switch (below(8)) {
    case 0:
    case 1:
        pause();
        break;
    case 2:
        cut();
        break;
    case 3:
        if (!in_script)
            write_by->one();
        break;
    case 4:
        if (!in_script)
            write_by->other();
        break;
    default:
        break;
    }
}

static uint32_t draw_piece(uint32_t ticks)
{
    switch (below(4)) {
    case 0:
        return 1;
    case 1:
        return below(20);
    case 2:
        return below(ticks + 1);
    default:
        return ticks;
    }
}

void play_write(const struct writers *writers)
{
    uint32_t pieces = between(1, 5), ticks;

    write_by = writers;
    in_script = one_in(3);
    no_steps();
    if (!one_in(5))
        cut();
    ticks = draw_write();
    for (; pieces > 0; pieces--) {
        wait_for(draw_piece(ticks));
        come_between();
    }
    if (one_in(2))
        wait_for(ticks);
    if (in_script)
        write_by->run();
}
