/* A small polling driver of the flash. It knows the part by board_transfer and board_delay alone. */
#ifndef FLASH_H
#define FLASH_H

#include <stddef.h>
#include <stdint.h>

#ifdef __cplusplus
extern "C" {
#endif

#define FLASH_PAGE_BYTES 256u
#define FLASH_SECTOR_BYTES 4096u

enum flash_result {
    FLASH_DONE,
    FLASH_REFUSED, /* the part would not do it: the place is protected */
    FLASH_TIMEOUT  /* the part stayed busy */
};

/* Maker, type and capacity, by 9Fh. */
void flash_read_id(uint8_t id[3]);

/* Maker and device, by 90h with the address 00h or 01h. */
void flash_read_maker_device(uint8_t address, uint8_t *maker, uint8_t *device);

uint8_t flash_read_status(void);
enum flash_result flash_write_status(uint8_t status);

/* Any number of bytes. */
void flash_read(uint32_t address, void *bytes, size_t length);

/* The sector that the address lies in. */
enum flash_result flash_erase_sector(uint32_t address);

/* Any number of bytes into erased memory, with one program for each page that they touch. Where `programs` is not a
 * null pointer, it gets the number of programs. */
enum flash_result flash_write(uint32_t address, const void *bytes, size_t length, unsigned *programs);

#ifdef __cplusplus
}
#endif

#endif
