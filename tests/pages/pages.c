/*
 * Holds the tables that people read against what the archive answers.
 *
 *   pages PART PROTECTION    PART is docs/PART.md, PROTECTION is docs/PROTECTION.md
 *
 * Of PART the three tables of commands, the table of the states and the list of what is left out: on each size, with EXTADD
 * 0 and 1 on 512 blocks, each of the 256 codes is sent in each state, with 1 to 9 bytes. The number and the first driven
 * place have to be those that follow from its row. And a command with an address acts at that place and at no other.
 * Of PROTECTION the two block tables: each cell is what the protection question answers.
 *
 * It prints one line that counts; or the first thing that is wrong, and ends with 1. Bad usage is 2.
 */
#include <stdarg.h>
#include <stdbool.h>
#include <stdint.h>
#include <stdio.h>
#include <stdlib.h>
#include <string.h>

#include "yawlspar.h"

#define COUNT(list) (sizeof(list) / sizeof((list)[0]))
#define BLOCK 65536u
#define LARGE 512u

static const char *page;
static unsigned line_number;

static void wrong(const char *format, ...) __attribute__((format(printf, 1, 2), noreturn));
static void wrong(const char *format, ...)
{
    va_list words;

    printf("pages: %s:%u: ", page, line_number);
    va_start(words, format);
    vprintf(format, words);
    va_end(words);
    printf("\n");
    exit(1);
}

/* ---- Rows of a page ---- */

#define CELLS_MOST 10u

static FILE *from;
static char line[8192], *cells[CELLS_MOST];

static void open_page(const char *name)
{
    page = name;
    line_number = 0;
    from = fopen(name, "r");
    if (from == NULL)
        wrong("it cannot be read");
}

/* The next line, in `line` as it stands and in `cells` cut up. Gives the number of cells, -1 at the end of the page. */
static int next_line(void)
{
    static char cut[sizeof line];
    char *at = cut + 1, *bar;
    int count = 0;

    if (fgets(line, sizeof line, from) == NULL)
        return -1;
    line_number++;
    line[strcspn(line, "\n")] = 0;
    strcpy(cut, line);
    for (; line[0] == '|' && count < (int)CELLS_MOST && (bar = strchr(at, '|')) != NULL; at = bar + 1) {
        at += *at == ' ';
        *bar = 0;
        if (bar > at && bar[-1] == ' ')
            bar[-1] = 0;
        cells[count++] = at;
    }
    return count;
}

/* Does the next code of a cell, as `D7h, 20h`, stand there? Words between codes are passed over. */
static bool next_code(char **at, unsigned *code)
{
    for (; **at != 0; ++*at)
        if (strspn(*at, "0123456789ABCDEF") == 2 && (*at)[2] == 'h') {
            sscanf(*at, "%2X", code);
            *at += 3;
            return true;
        }
    return false;
}

/* A code stands once in a table. */
static void once(unsigned code, bool before)
{
    if (before)
        wrong("%02Xh stands twice in this table", code);
}

/* ---- What PART says ---- */

enum { EVERY, ON_LARGE, EXTENDED, TABLES };
enum { IDLE, CAN_SUSPEND, CANNOT, PROGRAM_HALTED, ERASE_HALTED, WITHIN, ASLEEP, STATES };
enum { NO_ADDRESS, ARRAY_3, ARRAY_4, ROW_3, ADDRESSES };

struct command {
    unsigned line; /* 0: there is none */
    size_t least, from;
    bool more, wel;
    int address;
};
static struct command commands[TABLES][256];
static char *taken[256][STATES]; /* NULL where the code is in no row */
static bool left_out[256], others;

static void read_command(struct command *table)
{
    static const char *const addresses[ADDRESSES] = {"", "array, 3", "array, 4", "row, 3"};
    struct command command = {line_number, (size_t)atoi(cells[2]), (size_t)atoi(cells[5]), strstr(cells[2], " or more") != NULL,
                              strcmp(cells[3], "yes") == 0, 0};
    unsigned code;

    while (command.address < ADDRESSES && strcmp(cells[4], addresses[command.address]) != 0)
        command.address++;
    if (command.address == ADDRESSES)
        wrong("\"%s\" is no address", cells[4]);
    while (next_code(&cells[0], &code)) {
        once(code, table[code].line != 0);
        table[code] = command;
    }
}

static void read_state(void)
{
    bool other = strcmp(cells[0], "any other") == 0;
    unsigned code;
    int state;

    others |= other;
    for (state = 0; state < STATES; state++)
        if (other && strcmp(cells[1 + state], "20") != 0)
            wrong("any other code answers 20");
    while (next_code(&cells[0], &code)) {
        once(code, taken[code][0] != NULL);
        for (state = 0; state < STATES; state++)
            taken[code][state] = strdup(cells[1 + state]);
    }
}

static void read_left_out(void)
{
    unsigned code;

    while (next_code(&cells[1], &code)) {
        once(code, left_out[code]);
        left_out[code] = true;
    }
}

static void read_part(void)
{
    static const struct {
        const char *head;
        int cells;
    } heads[] = {
        {"| Code | Command | Length | WEL | Address | Drives from |", 6},
        {"| Codes | Idle | Busy with PP, SER, BER32 or BER64 | Busy with anything else | Program suspended | Erase suspended | A "
         "program within a suspended erase | Asleep |", 8},
        {"| Left out | Codes |", 2},
    };
    unsigned seen[COUNT(heads)] = {0};
    int now = -1, count, i;

    while ((count = next_line()) >= 0) {
        for (i = 0; i < (int)COUNT(heads) && strcmp(line, heads[i].head) != 0; i++)
            continue;
        if (count == 0) {
            now = -1;
        } else if (i < (int)COUNT(heads)) {
            now = i;
            seen[i]++;
        } else if (now >= 0 && strncmp(line, "|---", 4) != 0) {
            if (count != heads[now].cells)
                wrong("a row of this table has %d cells", heads[now].cells);
            if (now == 0 && seen[0] <= TABLES)
                read_command(commands[seen[0] - 1]);
            else if (now == 1)
                read_state();
            else if (now == 2)
                read_left_out();
        }
    }
    if (seen[0] != TABLES || seen[1] != 1 || seen[2] != 1 || !others)
        wrong("it should have three tables of commands, one of states with a row for any other code, and one of what is left out");
}

/* The tables are about the same codes. */
static void same_codes(void)
{
    unsigned code;

    for (code = 0; code < 256; code++) {
        bool known = commands[EVERY][code].line != 0 || commands[ON_LARGE][code].line != 0;

        if (known != (taken[code][0] != NULL) || (known && left_out[code]))
            wrong("%02Xh should be in a table of commands and in that of the states, and not be left out; or in neither", code);
    }
}

/* ---- The part ---- */

static uint32_t blocks;
static bool extadd;
static uint8_t record[YAWLSPAR_RECORD_BYTES], array[LARGE * BLOCK], rows[1024], output[4096];
static unsigned long asked;

static uint64_t transact(const uint8_t *bytes, size_t count)
{
    return yawlspar_transact(record, sizeof record, array, (size_t)blocks * BLOCK, rows, sizeof rows, 1, bytes, count, output,
                             count);
}

static void run(unsigned ticks)
{
    yawlspar_tick(record, sizeof record, array, (size_t)blocks * BLOCK, rows, sizeof rows, ticks);
}

/* Words in hex are transactions, `@` in them a fourth address byte where EXTADD is 1; `+` is a tick. All are executed. */
static void play(const char *words)
{
    for (; *words != 0; words += strcspn(words, " "), words += strspn(words, " ")) {
        uint8_t bytes[16];
        size_t count = 0, i;

        for (i = 0; words[i] != 0 && words[i] != ' '; i += words[i] == '@' ? 1 : 2) {
            unsigned byte = 0;

            if (words[i] == '+')
                break;
            if (words[i] != '@')
                sscanf(words + i, "%2X", &byte);
            if (words[i] != '@' || extadd)
                bytes[count++] = (uint8_t)byte;
        }
        if (count == 0)
            run(1);
        else if (YAWLSPAR_NUMBER(transact(bytes, count)) != 0)
            wrong("on %u blocks \"%s\" should lead into a state of the table", (unsigned)blocks, words);
    }
}

static void power_up(const char *words)
{
    yawlspar_power_up(record, sizeof record, blocks, 0x11, 0x22, 0x33, 0x44, 0, 0, 0);
    if (extadd)
        play("B7");
    play(words);
}

/* ---- Each code in each state ---- */

/* The row of a code on this part; none where the part does not know it. */
static const struct command *row_of(unsigned code)
{
    if (extadd && commands[EXTENDED][code].line != 0)
        return &commands[EXTENDED][code];
    return commands[EVERY][code].line != 0 || blocks != LARGE ? &commands[EVERY][code] : &commands[ON_LARGE][code];
}

static const struct {
    int column;
    uint32_t least; /* blocks */
    bool wel;
    const char *words;
} states[] = {
    {IDLE, 1, false, ""},
    {IDLE, 1, true, "06"},
    {CAN_SUSPEND, 1, true, "06 02@0002005A5A +"},
    {CAN_SUSPEND, 1, true, "06 D7@002000 +"},
    {CAN_SUSPEND, 1, true, "06 52@008000 +"},
    {CAN_SUSPEND, 1, true, "06 D8@010000 +"},
    {CANNOT, 1, true, "06 C7 +"},
    {CANNOT, 1, true, "06 64001000"},
    {CANNOT, 1, true, "06 6200100000"},
    {CANNOT, 1, true, "06 0100"},
    {CANNOT, 1, true, "06 4200"},
    {CANNOT, 1, true, "06 8500"},
    {PROGRAM_HALTED, 1, false, "06 02@0002005A5A + 75"},
    {ERASE_HALTED, 1, false, "06 D7@002000 + 75"},
    {ERASE_HALTED, 1, true, "06 52@008000 + 75 06"},
    {ERASE_HALTED, 4, true, "06 D8@010000 + 75 06"},
    {WITHIN, 1, true, "06 D7@002000 + 75 06 02@0002005A5A +"},
    {WITHIN, 4, true, "06 D8@010000 + 75 06 02@0002005A5A +"},
    {ASLEEP, 1, false, "B9"},
    {ASLEEP, 1, true, "06 B9"},
};

/* The number that the page gives a code that is sent with so many bytes. */
static uint64_t number_of(const struct command *row, const char *cell, size_t count, bool wel, bool armed)
{
    bool armed_alone = row->line != 0 && strcmp(cell, "if armed, else 25") == 0;
    int number = row->line != 0 ? atoi(cell) : 20;

    if (number != 0 && number < 24)
        return (uint64_t)number;
    if (row->more ? count < row->least : count != row->least)
        return 24;
    if (number != 0 || (armed_alone && !armed))
        return 25;
    if (!armed_alone && strcmp(cell, "taken") != 0)
        wrong("\"%s\" is no cell of the table of states", cell);
    return row->wel && !wel ? 26 : 0;
}

#define MESSAGE 9u

/* The code, an address that is one of the array and of row 1, and data that clears bits. */
static void message_of(uint8_t *message, unsigned code, const struct command *row)
{
    static const uint8_t behind[MESSAGE] = {0x00, 0x00, 0x10, 0x06, 0x00, 0x00, 0x00, 0x00, 0x00};

    message[0] = (uint8_t)code;
    memcpy(message + 1, behind + (row->address == ARRAY_4 ? 0 : 1), MESSAGE - 1);
}

static void ask(unsigned code, unsigned s, bool armed)
{
    const struct command *row = row_of(code);
    uint8_t message[MESSAGE], before[sizeof record];
    size_t count;

    message_of(message, code, row);
    memcpy(before, record, sizeof record);
    for (count = 1; count <= MESSAGE; count++) {
        uint64_t number = number_of(row, taken[code][states[s].column], count, states[s].wel, armed);
        uint64_t place = number == 0 && row->from != 0 && row->from < count ? row->from : count;
        uint64_t answer = transact(message, count);

        line_number = row->line;
        if (YAWLSPAR_NUMBER(answer) != number || YAWLSPAR_PLACE(answer) != place)
            wrong("%02Xh with %zu bytes after \"%s\" on %u blocks%s: number %u and place %u by the page, %u and %u by the archive",
                  code, count, states[s].words, (unsigned)blocks, extadd ? " with EXTADD" : "", (unsigned)number,
                  (unsigned)place, (unsigned)YAWLSPAR_NUMBER(answer), (unsigned)YAWLSPAR_PLACE(answer));
        memcpy(record, before, sizeof record);
        asked++;
    }
}

static void each_state(void)
{
    unsigned code, s;

    for (s = 0; s < COUNT(states); s++) {
        if (blocks < states[s].least)
            continue;
        power_up(states[s].words);
        for (code = 0; code < 256; code++)
            ask(code, s, false);
        if (states[s].column != ASLEEP) {
            play("66");
            ask(0x99, s, true);
        }
    }
}

/* ---- Where a command acts ---- */

#define PLACE 0x001006u
#define ROW_PLACE 0x106u
#define FAR_PLACE 0x021006u /* in another block */

/* Sends the command with its address, and looks for what it drives first, or for what it writes. */
static void acts_at(unsigned code)
{
    const struct command *row = row_of(code);
    uint8_t message[MESSAGE], *driven = output + row->from;
    bool here, far, in_row;

    memset(array, 0x5A, (size_t)blocks * BLOCK);
    memset(rows, 0x5B, sizeof rows);
    array[PLACE] = 0x6C;
    rows[ROW_PLACE] = 0x6D;
    power_up("06");
    message_of(message, code, row);
    transact(message, row->more ? MESSAGE : row->least);
    run(blocks == LARGE ? 131072 : 4096);
    here = row->from != 0 ? *driven == 0x6C : array[PLACE] != 0x6C;
    far = row->from != 0 ? *driven == 0x5A : array[FAR_PLACE] != 0x5A;
    in_row = row->from != 0 ? *driven == 0x6D : rows[ROW_PLACE] != 0x6D;
    line_number = row->line;
    if (here != (far || row->address == ARRAY_3 || row->address == ARRAY_4) || in_row != (row->address == ROW_3))
        wrong("%02Xh on %u blocks%s: its address is not as the page says", code, (unsigned)blocks, extadd ? " with EXTADD" : "");
}

static void each_part(void)
{
    static const uint32_t sizes[] = {1, 4, 8, 16, LARGE, LARGE};
    unsigned i, code;

    for (i = 0; i < COUNT(sizes); i++) {
        blocks = sizes[i];
        extadd = i == COUNT(sizes) - 1;
        each_state();
        for (code = 0; code < 256 && blocks > 1; code++)
            if (row_of(code)->line != 0)
                acts_at(code);
    }
}

/* ---- The block tables ---- */

static unsigned cells_read, cells_by_rule;

/* A cell in the words of a data sheet, with a word in brackets where the print cannot be read. */
static void read_cell(char *cell, unsigned code, unsigned size, bool in_print)
{
    static const char *const words[] = {" (blank)", " (shifted)", " (garbled)", " (stray)"};
    unsigned first = (unsigned)yawlspar_protected_first(code, size), count = (unsigned)yawlspar_protected_count(code, size), i;
    char *word = strstr(cell, " ("), answer[64] = "None";

    for (i = 0; i < COUNT(words) && in_print && word != NULL; i++)
        if (strcmp(word, words[i]) == 0) {
            *word = 0;
            cells_by_rule++;
        }
    if (count == size && size > 1)
        strcpy(answer, "All Blocks");
    else if (count == 1)
        snprintf(answer, sizeof answer, "1 block : %u", first);
    else if (count > 1)
        snprintf(answer, sizeof answer, "%u blocks : %u - %u", count, first, first + count - 1);
    if (strcmp(cell, answer) != 0)
        wrong("code %u of %u blocks: \"%s\" by the page, \"%s\" by the archive", code, size, cell, answer);
    cells_read++;
}

static void read_protection(void)
{
    static const char *const heads[] = {"| BP3 | BP2 | BP1 | BP0 | 8 Mbit | 4 Mbit | 2 Mbit | 1 block |",
                                        "| BP3 | BP2 | BP1 | BP0 | 256 Mbit, TBS 0 | 256 Mbit, TBS 1 |"};
    static const unsigned sizes[2][4] = {{16, 8, 4, 1}, {LARGE, LARGE}};
    static const int columns[2] = {4, 2};
    unsigned code, t;
    int c;

    for (t = 0; t < COUNT(heads); t++) {
        do
            if (next_line() < 0)
                wrong("it has no table with the head %s", heads[t]);
        while (strcmp(line, heads[t]) != 0);
        next_line();
        for (code = 0; code < 16; code++) {
            char bits[32];

            snprintf(bits, sizeof bits, "| %u | %u | %u | %u |", code / 8, code / 4 % 2, code / 2 % 2, code % 2);
            if (next_line() != 4 + columns[t] || strncmp(line, bits, strlen(bits)) != 0)
                wrong("here should stand a row of %d cells that begins with %s", 4 + columns[t], bits);
            for (c = 0; c < columns[t]; c++)
                read_cell(cells[4 + c], code + (t == 1 && c == 1 ? 16 : 0), sizes[t][c], t == 0 && c < 3);
        }
        if (next_line() > 0)
            wrong("a table has 16 rows");
    }
}

int main(int argc, char **argv)
{
    if (argc != 3) {
        fprintf(stderr, "usage: pages PART PROTECTION\n");
        return 2;
    }
    open_page(argv[1]);
    read_part();
    same_codes();
    each_part();
    open_page(argv[2]);
    read_protection();
    printf("pages: %lu answers and %u cells are as docs/PART.md and docs/PROTECTION.md have them, %u of the cells by the rule\n",
           asked, cells_read, cells_by_rule);
    return 0;
}
