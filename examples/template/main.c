/* Tests the driver flash.c on the model. It ends with 0 only if all was as it should be. */
#include <stdbool.h>
#include <stdio.h>
#include <stdlib.h>
#include <string.h>

#include "board.h"
#include "flash.h"

static unsigned wrong;

static void expect(bool holds, const char *what)
{
    if (!holds) {
        printf("WRONG: %s\n", what);
        wrong++;
    }
}

static void identify(void)
{
    uint8_t id[3], address;

    flash_read_id(id);
    printf("9Fh: maker %02Xh, type %02Xh, capacity %02Xh\n", id[0], id[1], id[2]);
    expect(id[0] == 0x9D && id[1] == 0x60 && id[2] == 0x14, "the identity by 9Fh");
    for (address = 0; address <= 1; address++) {
        uint8_t maker, device;

        flash_read_maker_device(address, &maker, &device);
        printf("90h at %02Xh: maker %02Xh, device %02Xh\n", address, maker, device);
        expect(maker == 0x9D && device == 0x13, "the identity by 90h");
    }
}

/* How many of the bytes from the address on are `byte`. */
static unsigned holding(uint8_t byte, uint32_t address, size_t length)
{
    unsigned count = 0;

    for (; length > 0; length--) {
        uint8_t held;

        flash_read(address++, &held, 1);
        count += held == byte;
    }
    return count;
}

static void erase(void)
{
    unsigned erased;

    expect(flash_erase_sector(0x002000) == FLASH_DONE, "the erase of sector 002000h");
    erased = holding(0xFF, 0x002000, FLASH_SECTOR_BYTES);
    printf("sector 002000h: %u of %u bytes erased\n", erased, FLASH_SECTOR_BYTES);
    expect(erased == FLASH_SECTOR_BYTES, "the sector is erased");
    expect(holding(0x00, 0x001FFF, 1) == 1 && holding(0x00, 0x003000, 1) == 1, "the bytes around it are as they were");
}

static void write_over_a_page_border(void)
{
    static const char text[] = "sixteen bytes in one page, and the rest in the next one";
    char back[sizeof text];
    unsigned programs;

    expect(flash_write(0x0020F0, text, sizeof text, &programs) == FLASH_DONE, "the write at 0020F0h");
    printf("%u bytes at 0020F0h: %u programs\n", (unsigned)sizeof text, programs);
    expect(programs == 2, "two pages are two programs");
    flash_read(0x0020F0, back, sizeof back);
    expect(memcmp(back, text, sizeof text) == 0, "the bytes read back");
    back[sizeof back - 1] = '\0';
    printf("read back: %s\n", back);
    expect(holding(0xFF, 0x002000, 0xF0) == 0xF0, "the first page is empty up to them");
}

int main(void)
{
    /* all 00h, so that an erase shows */
    board_new_part(0x00);
    identify();
    erase();
    write_over_a_page_border();
    printf("the part ignored %u transactions\n", board_ignored());
    expect(board_ignored() == 0, "the driver sends nothing that the part ignores");
    if (wrong > 0) {
        printf("%u things are wrong\n", wrong);
        return EXIT_FAILURE;
    }
    printf("all is as it should be\n");
    return EXIT_SUCCESS;
}
