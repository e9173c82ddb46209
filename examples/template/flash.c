#include "flash.h"

#include <assert.h>
#include <string.h>

#include "board.h"

enum command {
    WRITE_STATUS = 0x01,
    PAGE_PROGRAM = 0x02,
    READ = 0x03,
    WRITE_DISABLE = 0x04,
    READ_STATUS = 0x05,
    WRITE_ENABLE = 0x06,
    READ_EXTENDED = 0x81,
    CLEAR_ERRORS = 0x82,
    READ_MAKER_DEVICE = 0x90,
    READ_ID = 0x9F,
    SECTOR_ERASE = 0xD7
};

#define WIP 0x01u       /* of the status register: a write is in progress */
#define PROTECTED 0x02u /* of the extended read register: a write was refused, its place is protected */
#define ADDRESSED 4u    /* the code and three address bytes */
#define POLLS 100000u

static void send(enum command command)
{
    uint8_t out[] = {(uint8_t)command}, in[sizeof out];

    board_transfer(out, in, sizeof out);
}

static uint8_t read_register(enum command command)
{
    uint8_t out[2] = {(uint8_t)command}, in[sizeof out];

    board_transfer(out, in, sizeof out);
    return in[1];
}

static void put_address(uint8_t *out, enum command command, uint32_t address)
{
    out[0] = (uint8_t)command;
    out[1] = (uint8_t)(address >> 16);
    out[2] = (uint8_t)(address >> 8);
    out[3] = (uint8_t)address;
}

static size_t left_in_page(uint32_t address, size_t length)
{
    size_t left = FLASH_PAGE_BYTES - address % FLASH_PAGE_BYTES;

    return length < left ? length : left;
}

/* Waits for the end of a write that was sent, and asks whether the part did it. */
static enum flash_result finish(void)
{
    unsigned polls = 0;

    while ((read_register(READ_STATUS) & WIP) != 0) {
        if (++polls == POLLS)
            return FLASH_TIMEOUT;
        board_delay();
    }
    if ((read_register(READ_EXTENDED) & PROTECTED) == 0)
        return FLASH_DONE;
    /* a write that is refused leaves the part write-enabled */
    send(CLEAR_ERRORS);
    send(WRITE_DISABLE);
    return FLASH_REFUSED;
}

void flash_read_id(uint8_t id[3])
{
    uint8_t out[4] = {READ_ID}, in[sizeof out];

    board_transfer(out, in, sizeof out);
    memcpy(id, in + 1, 3);
}

/* At address 00h the maker comes first, at 01h the device. */
void flash_read_maker_device(uint8_t address, uint8_t *maker, uint8_t *device)
{
    uint8_t out[ADDRESSED + 2] = {0}, in[sizeof out];
    const uint8_t *bytes = in + ADDRESSED;

    assert(address <= 1);
    put_address(out, READ_MAKER_DEVICE, address);
    board_transfer(out, in, sizeof out);
    *maker = bytes[address];
    *device = bytes[1 - address];
}

uint8_t flash_read_status(void)
{
    return read_register(READ_STATUS);
}

enum flash_result flash_write_status(uint8_t status)
{
    uint8_t out[] = {WRITE_STATUS, status}, in[sizeof out];

    send(WRITE_ENABLE);
    board_transfer(out, in, sizeof out);
    return finish();
}

void flash_read(uint32_t address, void *bytes, size_t length)
{
    uint8_t out[ADDRESSED + FLASH_PAGE_BYTES] = {0}, in[sizeof out], *to = bytes;

    while (length > 0) {
        size_t now = left_in_page(address, length);

        put_address(out, READ, address);
        board_transfer(out, in, ADDRESSED + now);
        memcpy(to, in + ADDRESSED, now);
        address += (uint32_t)now;
        to += now;
        length -= now;
    }
}

enum flash_result flash_erase_sector(uint32_t address)
{
    uint8_t out[ADDRESSED], in[sizeof out];

    send(WRITE_ENABLE);
    put_address(out, SECTOR_ERASE, address);
    board_transfer(out, in, sizeof out);
    return finish();
}

/* Past the page's end the part would go on at the page's start. */
static enum flash_result program(uint32_t address, const uint8_t *bytes, size_t length)
{
    uint8_t out[ADDRESSED + FLASH_PAGE_BYTES], in[sizeof out];

    assert(length >= 1 && length <= left_in_page(address, length));
    send(WRITE_ENABLE);
    put_address(out, PAGE_PROGRAM, address);
    memcpy(out + ADDRESSED, bytes, length);
    board_transfer(out, in, ADDRESSED + length);
    return finish();
}

enum flash_result flash_write(uint32_t address, const void *bytes, size_t length, unsigned *programs)
{
    const uint8_t *from = bytes;
    unsigned count = 0;
    enum flash_result result = FLASH_DONE;

    while (length > 0 && result == FLASH_DONE) {
        size_t now = left_in_page(address, length);

        result = program(address, from, now);
        count++;
        address += (uint32_t)now;
        from += now;
        length -= now;
    }
    if (programs != NULL)
        *programs = count;
    return result;
}
