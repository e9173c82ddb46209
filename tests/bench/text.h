/* The text of an input that is made: bytes put one behind the other, and in the end written to standard output. */
#ifndef TEXT_H
#define TEXT_H

#include <stddef.h>
#include <stdint.h>

extern long write(int, const void *, unsigned long);

#define TEXT_MOST 400000u /* more than a bench reads */

static uint8_t text[TEXT_MOST];
static size_t length; /* of the text */

static void put(uint8_t c)
{
    if (length < TEXT_MOST) {
        text[length] = c;
        length++;
    }
}

static void put_pair(uint8_t byte)
{
    const char *digits = "0123456789ABCDEF";

    put((uint8_t)digits[byte / 16]);
    put((uint8_t)digits[byte % 16]);
}

static void put_number(uint32_t n)
{
    if (n >= 10)
        put_number(n / 10);
    put((uint8_t)('0' + n % 10));
}

static int write_text(void)
{
    size_t at = 0;

    while (at < length) {
        long wrote = write(1, text + at, length - at);

        if (wrote <= 0)
            return 1;
        at += (size_t)wrote;
    }
    return 0;
}

#endif
