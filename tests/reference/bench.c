/* Yawlspar's reference bench, on the reference model.
 *
 *   reference          the program `bench` of the specification: up to 65,536 bytes of standard input
 *                      on the 1-block part, lines of up to 64 pairs
 *   reference sizes    the program `bench_sizes`: up to 262,144 bytes, lines of up to 4,096 pairs, the
 *                      whole script on a fresh part of 1, then 4, 8 and 16 blocks
 *   reference 512      the same on a fresh part of 512 blocks with TBS 0 (top), then on one with TBS 1
 *                      (bottom), identity 9D 60 19 18h; a K line has up to six digits
 *   reference wear     the program `wear`: what `bench` reads, on the same part. Nothing is printed for the lines, and
 *                      at the end the wear of the 16 sectors is, counted from 0
 *
 * The exit status is 0; 1 where reading or writing fails; 2 where the arguments are others. */
#include "reference.h"

extern long read(int, void *, unsigned long);
extern long write(int, const void *, unsigned long);
extern int strcmp(const char *, const char *);

#define INPUT_MOST 262144u

/* A part at the beginning of a script; its status and extended read register are 0. */
struct fresh {
    uint32_t size;
    uint8_t m, t, c, d;
    uint8_t function;
};

static const struct fresh old_parts[] = {
    {1, 0x11, 0x22, 0x33, 0x44, 0x00},
    {4, 0x11, 0x22, 0x33, 0x44, 0x00},
    {8, 0x11, 0x22, 0x33, 0x44, 0x00},
    {16, 0x11, 0x22, 0x33, 0x44, 0x00},
};
static const struct fresh large_parts[] = {
    {REF_LARGE, 0x9D, 0x60, 0x19, 0x18, 0x00},
    {REF_LARGE, 0x9D, 0x60, 0x19, 0x18, 0x02}, /* TBS */
};

struct form {
    size_t input_most;  /* bytes that are read; those past them are not */
    size_t pairs_most;  /* pairs in a T or L line */
    size_t digits_most; /* digits in a K line */
    const struct fresh *parts; /* the script is run on each of these */
    size_t count;
    bool worn; /* the wear of each is printed, and nothing else */
};

static const struct form one_size = {65536, 64, 5, old_parts, 1, false};
static const struct form old_sizes = {INPUT_MOST, REF_MOST, 5, old_parts, 4, false};
static const struct form large_size = {INPUT_MOST, REF_MOST, 6, large_parts, 2, false};
static const struct form one_worn = {65536, 64, 5, old_parts, 1, true};

static uint8_t input[INPUT_MOST];
static uint8_t array[REF_LARGE * REF_BLOCK]; /* a smaller part has the first of it */
static uint8_t rows[REF_ROWS];
static uint8_t in[REF_MOST], out[REF_MOST];
static struct part part;
static struct wear wear[REF_LARGE * REF_BLOCK / REF_SECTOR];
static uint8_t text[REF_LARGE * 512 + 64];

/* ---- Output ---- */

static char held[4096];
static size_t held_bytes;
static bool failed;
static bool silent; /* nothing is printed for a line */

static void flush(void)
{
    size_t at = 0;

    while (at < held_bytes && !failed) {
        long wrote = write(1, held + at, held_bytes - at);

        if (wrote <= 0)
            failed = true;
        else
            at += (size_t)wrote;
    }
    held_bytes = 0;
}

static void put(char c)
{
    if (silent)
        return;
    if (held_bytes == sizeof held)
        flush();
    held[held_bytes] = c;
    held_bytes++;
}

static void put_number(uint32_t n)
{
    char digits[10];
    size_t count = 0;

    do {
        digits[count] = (char)('0' + n % 10);
        count++;
        n /= 10;
    } while (n != 0);
    while (count > 0) {
        count--;
        put(digits[count]);
    }
}

static void put_pair(uint8_t byte)
{
    const char *digits = "0123456789ABCDEF";

    put(digits[byte / 16]);
    put(digits[byte % 16]);
}

/* Tells what went wrong on standard error; gives the exit status. */
static int complain(const char *what, int status)
{
    size_t length = 0;

    while (what[length] != 0)
        length++;
    return write(2, what, length) < 0 ? 1 : status;
}

/* ---- Lines ---- */

static size_t array_length(void)
{
    return (size_t)part.size * REF_BLOCK;
}

static size_t sectors(void)
{
    return array_length() / REF_SECTOR;
}

/* The value of an upper-case hex digit, or -1. */
static int hex_digit(uint8_t c)
{
    if (c >= '0' && c <= '9')
        return c - '0';
    if (c >= 'A' && c <= 'F')
        return c - 'A' + 10;
    return -1;
}

/* Takes the pairs of a T or L line into `in`. Gives how many, or 0 where the line is not of this form:
 * `T` or `L`, a space, 1 to pairs_most upper-case hex pairs. */
static size_t take_pairs(const uint8_t *line, size_t length, size_t pairs_most)
{
    size_t pairs, i;

    if (length < 4 || length % 2 != 0)
        return 0;
    if ((line[0] != 'T' && line[0] != 'L') || line[1] != ' ')
        return 0;
    pairs = (length - 2) / 2;
    if (pairs > pairs_most)
        return 0;
    for (i = 0; i < pairs; i++) {
        int high = hex_digit(line[2 + 2 * i]);
        int low = hex_digit(line[3 + 2 * i]);

        if (high < 0 || low < 0)
            return 0;
        in[i] = (uint8_t)(high * 16 + low);
    }
    return pairs;
}

/* False where the line is not of the form of take_pairs. */
static bool transaction_line(const uint8_t *line, size_t length, size_t pairs_most)
{
    size_t pairs = take_pairs(line, length, pairs_most);
    size_t i, first;
    int answer;

    if (pairs == 0)
        return false;
    answer = ref_transact(&part, array, array_length(), rows, sizeof rows, line[0] == 'T', in, pairs,
                          out, pairs, &first);
    put_number((uint32_t)answer);
    put(' ');
    if (first == pairs)
        put('-');
    else
        put_number((uint32_t)first);
    put(' ');
    for (i = 0; i < pairs; i++)
        put_pair(out[i]);
    put('\n');
    return true;
}

/* `K`, a space, one to digits_most digits. False where the line is not of this form. */
static bool tick_line(const uint8_t *line, size_t length, size_t digits_most)
{
    uint32_t ticks = 0, worked;
    size_t i;
    int answer;

    if (length < 3 || length > 2 + digits_most || line[0] != 'K' || line[1] != ' ')
        return false;
    for (i = 2; i < length; i++) {
        if (line[i] < '0' || line[i] > '9')
            return false;
        ticks = ticks * 10 + (uint32_t)(line[i] - '0');
    }
    if (silent)
        answer = ref_tick_wear(&part, array, array_length(), rows, sizeof rows, ticks, &worked, wear, sectors());
    else
        answer = ref_tick(&part, array, array_length(), rows, sizeof rows, ticks, &worked);
    put_number((uint32_t)answer);
    put(' ');
    put_number(worked);
    put('\n');
    return true;
}

/* ---- The script ---- */

/* Reads up to `most` bytes, in whatever pieces they come. Gives how many, or -1 where reading fails. */
static long take_input(size_t most)
{
    size_t length = 0;

    while (length < most) {
        long got = read(0, input + length, most - length);

        if (got < 0)
            return -1;
        if (got == 0)
            break;
        length += (size_t)got;
    }
    return (long)length;
}

/* Makes a fresh part: array and rows FFh, and no wear. */
static bool make_part(const struct fresh *fresh)
{
    size_t i;

    for (i = 0; i < sizeof wear / sizeof wear[0]; i++)
        wear[i] = (struct wear){0, 0};

    for (i = 0; i < (size_t)fresh->size * REF_BLOCK; i++)
        array[i] = 0xFF;
    for (i = 0; i < sizeof rows; i++)
        rows[i] = 0xFF;
    return ref_power_up(&part, fresh->size, fresh->m, fresh->t, fresh->c, fresh->d, 0, fresh->function, 0) == 0;
}

static void run_script(size_t length, const struct form *form)
{
    size_t at = 0;

    while (at < length) {
        size_t end = at;

        while (end < length && input[end] != '\n')
            end++;
        if (!transaction_line(input + at, end - at, form->pairs_most) &&
            !tick_line(input + at, end - at, form->digits_most)) {
            put('?');
            put('\n');
        }
        at = end + 1; /* past the LF, or past the end */
    }
}

static bool print_wear(void)
{
    size_t length, i;

    if (ref_wear_text(part.size, wear, sectors(), text, ref_wear_text_bytes(part.size), &length) != 0)
        return false;
    for (i = 0; i < length; i++)
        put((char)text[i]);
    return true;
}

static int run_form(const struct form *form)
{
    long length = take_input(form->input_most);
    size_t i;

    if (length < 0)
        return complain("reference: standard input can't be read\n", 1);
    for (i = 0; i < form->count; i++) {
        if (!make_part(&form->parts[i]))
            return complain("reference: power-up is refused\n", 1);
        silent = form->worn;
        run_script((size_t)length, form);
        silent = false;
        if (form->worn && !print_wear())
            return complain("reference: wear is refused\n", 1);
    }
    flush();
    return failed ? complain("reference: standard output can't be written\n", 1) : 0;
}

int main(int argc, char **argv)
{
    if (argc == 1)
        return run_form(&one_size);
    if (argc == 2 && strcmp(argv[1], "sizes") == 0)
        return run_form(&old_sizes);
    if (argc == 2 && strcmp(argv[1], "512") == 0)
        return run_form(&large_size);
    if (argc == 2 && strcmp(argv[1], "wear") == 0)
        return run_form(&one_worn);
    return complain("usage: reference [sizes | 512 | wear], with the script on standard input\n", 2);
}
