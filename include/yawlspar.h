/*
 * Yawlspar for C: the model of an ISSI IS25 serial flash.
 *
 * Link with libyawlspar.a, the archive that scripts/archive puts beside this header. It is for x86-64
 * programs. The functions in it were compiled from proved code.
 *
 * Each function always returns, and is defined for every value of every number: what makes no sense is
 * answered with a number that is named below. The caller only has to make sure that each pointer is valid
 * for the length passed with it, and that nothing overlaps a buffer that is written. No function
 * keeps or shares any state, so each may be called from any thread, on its own buffers. The same
 * arguments and bytes always give the same result.
 */
#ifndef YAWLSPAR_H
#define YAWLSPAR_H

#include <stddef.h>
#include <stdint.h>

#ifdef __cplusplus
extern "C" {
#endif

/*
 * The version: 1000 times the number before its point, plus the number after it. It goes up with each
 * change of what is declared here, of a record's bytes or of an answer. yawlspar_version gives the archive's version. A
 * program should check once that both are the same: if YAWLSPAR_MATCHES() is 0, it was compiled with the header
 * of one version and linked to the archive of another, and nothing below holds.
 */
#define YAWLSPAR_VERSION 1009
uint64_t yawlspar_version(void);
#define YAWLSPAR_MATCHES() (yawlspar_version() == YAWLSPAR_VERSION)

/*
 * The numbers that a call answers. 0 means that the call was executed. 1 to 7 and 36 to 38 are refusals: the call was
 * wrong, and the part has not seen it. A script that answers 3 or 6 stopped at a step that was wrong, and the part has
 * seen what came before. 20 to 28 mean that the part ignored a transaction.
 * 35 is answered by the calls with wear alone, and is a refusal too.
 */
enum yawlspar_number {
    YAWLSPAR_EXECUTED = 0,
    YAWLSPAR_BAD_SIZE = 1,      /* there is no part of that size, or the array is not as long as the part is large */
    YAWLSPAR_BAD_ROWS = 2,      /* the rows are not 1,024 bytes */
    YAWLSPAR_BAD_INPUT = 3,     /* no byte is sent, or more than 4,096 */
    YAWLSPAR_BAD_OUTPUT = 4,    /* the output is not as long as the input */
    YAWLSPAR_BAD_RECORD = 5,    /* no record, or one that is not sound, or another argument is out of range */
    YAWLSPAR_BAD_TICKS = 6,     /* more ticks than one call runs */
    YAWLSPAR_BAD_LISTS = 7,     /* a script's lists differ in length, or its lengths do not add up to the input's */
    YAWLSPAR_UNKNOWN = 20,      /* the first byte is not a command of the part */
    YAWLSPAR_ASLEEP = 21,       /* a sleeping part takes only ABh */
    YAWLSPAR_BUSY = 22,         /* a busy part does not take the command */
    YAWLSPAR_SUSPENDED = 23,    /* a suspended part does not take it */
    YAWLSPAR_WRONG_LENGTH = 24, /* more or fewer bytes than the command has */
    YAWLSPAR_OUT_OF_TURN = 25,  /* nothing to suspend, nothing to resume, or 99h without 66h right before it */
    YAWLSPAR_NOT_ENABLED = 26,  /* WEL is 0: 06h comes first */
    YAWLSPAR_NO_SUCH_ROW = 27,  /* the address is not that of an information row */
    YAWLSPAR_PROTECTED = 28,    /* protected, locked, in the unit of a suspended erase, a chip erase with a BP bit
                                   set, or barred by WP# */
    YAWLSPAR_BAD_WEAR = 35,     /* there is not one wear record for each sector */
    YAWLSPAR_BAD_MAP = 36,      /* the map has not one bit for each page */
    YAWLSPAR_BAD_PAGE = 37,     /* the part has no page of that number */
    YAWLSPAR_BAD_IMAGE = 38     /* the image is not as long as the array */
};

/*
 * The protection question: which blocks do the block protection bits protect? For a code and a size it has one
 * answer, the first protected block and the count of protected blocks from it, and a number that says whether
 * it can be answered. The four functions below read that answer. These are their arguments; the functions that
 * give first and count take no address:
 *
 *   code     the block protection bits BP3..BP0 of the status register, as a number from 0 to 15,
 *            with BP0 as its lowest bit: (status >> 2) & 15. On 512 blocks add 16 if the top or bottom
 *            bit TBS, bit 1 of the function register, is 1: a number from 0 to 31,
 *            ((status >> 2) & 15) | ((function & 2) << 3)
 *   blocks   the size of the array in blocks of 65,536 bytes: 1, 4, 8, 16 or 512
 *   address  any number
 *
 * The rule, for an array of N = 1, 4, 8 or 16 blocks, numbered from 0:
 *   code 0 or 15    no block is protected;
 *   code c, 1..7    the top min(N, 2^(c-1)) blocks are protected;
 *   code c, 8..14   the bottom min(N, 2^(14-c)) blocks are protected.
 * and for 512 blocks:
 *   code 0 or 16            no block is protected;
 *   code c, 1..9            the top 2^(c-1) blocks are protected;
 *   code 16 + c, c = 1..9   the bottom 2^(c-1) blocks are protected;
 *   10..15 and 26..31       all blocks are protected.
 */

/*
 * Says whether the question can be answered. The address does not matter to it. The result is
 *   0  if it can;
 *   1  if blocks is not 1, 4, 8, 16 or 512;
 *   5  if blocks is one of these and code is above 15, on 512 blocks above 31.
 * The size is checked first: if both are wrong, the result is 1.
 */
uint64_t yawlspar_protection_number(uint64_t code, uint64_t blocks, uint64_t address);

/*
 * Give the first protected block, and how many blocks are protected from it on: block b is protected exactly
 * if first <= b and b < first + count. Both are 0 if no block is protected, and if
 * yawlspar_protection_number is not 0.
 *
 * first + count is at most blocks, and if count is 0, first is 0. A program, or an erase of a sector or
 * of a block of 32 or 64 Kbyte, whose address lies in one of these blocks is ignored, with 28 if no lower number
 * applies. A chip erase goes by BP3..BP0, which have to be 0: on 1 to 16 blocks code 15 protects no block, but a
 * chip erase is still ignored.
 */
uint64_t yawlspar_protected_first(uint64_t code, uint64_t blocks);
uint64_t yawlspar_protected_count(uint64_t code, uint64_t blocks);

/*
 * Says whether the byte at an address lies in a protected block. The address is taken modulo the size, which
 * is blocks * 65536 bytes.
 *
 * The result is 1 if its block, address % (blocks * 65536) / 65536, is one of the protected blocks, and 0 if it
 * is not. It is also 0 if the question cannot be answered; yawlspar_protection_number tells the two
 * cases apart.
 */
uint64_t yawlspar_protected(uint64_t code, uint64_t blocks, uint64_t address);

/*
 * Gives the place in its 256-byte page where a page program puts one of the bytes that were sent.
 *
 *   start  the place in the page where the program starts, from 0 to 255: the lowest byte of the
 *          address that was sent
 *   index  the number of the sent data byte, counted from 0: below 4,092
 *
 * The result is (start + index) modulo 256: after the page's last byte comes its first. For a start
 * of 256 or more, or an index of 4,092 or more, the result is 256, which is not a place in a page.
 */
uint64_t yawlspar_page_place(uint64_t start, uint64_t index);

/*
 * The calls. A part's state is a record of YAWLSPAR_RECORD_BYTES bytes that the caller keeps;
 * yawlspar_power_up makes it, and the others read it and write the next one back. Copying the bytes
 * copies the part. The array, blocks * 65536 bytes, and the four information rows, 1,024 bytes, also belong to
 * the caller.
 *
 * With a record of zeros, which was never powered up, the answer is 1: it has no size. A record has no checksum:
 * with a byte changed it may be another sound record, and is then used as such.
 *
 * To cut the power of a part, send ABh, 66h and 99h, each byte as a transaction: the record is then that of a
 * fresh power-up with the registers that the part has stored, whatever it was doing. To keep a part in a file,
 * write its record, array and rows, and YAWLSPAR_VERSION, the version that the record is for. After loading them,
 * yawlspar_tick with 0 ticks changes nothing, and answers 0 exactly if there is a sound record of a part of that
 * size.
 *
 * The result r of a call is two numbers in one: YAWLSPAR_NUMBER(r), the answer, 0 for a call that was
 * executed, and above it the place, the count, the step or the page that is described at the call. Of a check it is
 * three: above the number are the verdict and where it is. If several numbers apply, the lowest is the answer, except
 * that a script looks for 7 before 4, and for 3 and 6 at each step, after all others, that a check looks for 38 right
 * after 1, and that a call that is lent a map looks for 36 right after 1.
 * A call that is refused, with 1 to 7 or 36 to 38, leaves every byte of every buffer as it was, and the bits above the
 * number are 0. Only a script that stops at one of its steps, with 3 or 6, has done the steps before it; a check of such
 * a script is not refused, and has done them too.
 * The same goes for the calls with wear, with these words more: a call that is lent wear looks for 35 right after 1, one
 * that is refused with 35 leaves every byte as it was too, and above the number of a text of wear is its length. There 4
 * means that the text is not of its length.
 */
#define YAWLSPAR_RECORD_BYTES 322
#define YAWLSPAR_NUMBER(r) ((r) & 255)
#define YAWLSPAR_PLACE(r) ((r) >> 8)
#define YAWLSPAR_TICKS(r) ((r) >> 8)
#define YAWLSPAR_STEP(r) ((r) >> 8)
#define YAWLSPAR_PAGE(r) ((r) >> 8)
#define YAWLSPAR_LENGTH(r) ((r) >> 8)
#define YAWLSPAR_VERDICT(r) (((r) >> 8) & 255)
#define YAWLSPAR_WHERE(r) ((r) >> 16)

/*
 * Power-up: makes the record of a part that is idle and awake.
 *
 *   record                          record_len bytes, which are written
 *   blocks                          the size of the array in blocks: 1, 4, 8, 16 or 512
 *   maker, type, capacity, device   the identity bytes
 *   status, function, extended      the stored registers; status bits 1..0, function bits 3..0 and bits 4..0 of
 *                                   the extended read register must be zero, except that on 512 blocks function
 *                                   bit 1 is TBS: 0 for top, 1 for bottom. No command changes it
 *
 * The live byte of the extended read register, which 81h reads and 83h sets, is loaded from the stored one, with
 * E_ERR, P_ERR and PROT_E 0. The bank address register, which only a part of 512 blocks has, is 00h: three address
 * bytes, and the lower 16 Mbyte.
 *
 * The number is
 *   0  if the record was written;
 *   1  if blocks is not 1, 4, 8, 16 or 512;
 *   5  if record_len is not YAWLSPAR_RECORD_BYTES, if one of the seven other numbers is above 255, or
 *      if a register bit that must be zero is set.
 */
uint64_t yawlspar_power_up(uint8_t *record, size_t record_len, uint64_t blocks, uint64_t maker,
                           uint64_t type, uint64_t capacity, uint64_t device, uint64_t status,
                           uint64_t function, uint64_t extended);

/*
 * A transaction: the input bytes go in on one line while the output bytes come out on the other.
 *
 *   record   the part's record; the next one is written over it
 *   array    the part's array
 *   rows     the four information rows
 *   wp_high  1 if the pin WP# is high, 0 if it is low
 *   input    1 to 4,096 bytes
 *   output   the same number of bytes, all of which are written; places that the part does not drive hold FFh
 *
 * Input and output are two buffers. In one buffer, what is sent would be lost: FFh is written over it, and a 02h
 * would program FFh.
 *
 * The number is
 *   0  if the command was executed;
 *   1  if the array's length is not that of the record's size, or that size is not valid;
 *   2  if rows_len is not 1,024;
 *   3  if input_len is 0 or above 4,096;
 *   4  if output_len is not input_len;
 *   5  if the bytes hold no record, the record is not sound, or wp_high is neither 0 nor 1;
 *   20 to 28  if the part ignored the transaction: the output is all FFh. With 28 an erase sets E_ERR and
 *             PROT_E, and a program P_ERR and PROT_E, in the extended read register, which 81h reads. 28 is also
 *             the number of a program into the unit of a suspended erase.
 * If the bytes hold no record, there is no size to check: the number is then 2, 3, 4 or 5.
 * YAWLSPAR_PLACE is the first driven place of the output, or input_len if nothing is driven.
 */
uint64_t yawlspar_transact(uint8_t *record, size_t record_len, const uint8_t *array, size_t array_len,
                           const uint8_t *rows, size_t rows_len, uint64_t wp_high, const uint8_t *input,
                           size_t input_len, uint8_t *output, size_t output_len);

/*
 * Time passes: the given number of ticks of a running program, erase or register write.
 *
 *   record   the part's record; the next one is written over it
 *   array    the part's array, which an operation may write
 *   rows     the four information rows, which an operation may write
 *   ticks    0 to 4,096; on a part of 512 blocks 0 to 131,072
 *
 * The number is
 *   0  if the ticks were run;
 *   1  if the array's length is not that of the record's size, or that size is not valid;
 *   2  if rows_len is not 1,024;
 *   5  if the bytes hold no record, or the record is not sound;
 *   6  if ticks is above 4,096, on a part of 512 blocks above 131,072.
 * If the bytes hold no record, there is no size to check: the number is then 2 or 5. YAWLSPAR_TICKS is
 * how many of the ticks did work.
 */
uint64_t yawlspar_tick(uint8_t *record, size_t record_len, uint8_t *array, size_t array_len,
                       uint8_t *rows, size_t rows_len, uint64_t ticks);

/*
 * A script: a list of transactions, each with ticks after it, in one call. Step k is yawlspar_transact and then
 * yawlspar_tick, and what a script leaves is what these calls leave when they are made one by one. It saves their
 * fixed cost: the record is judged once, before the first step, and not by each call.
 *
 *   record   the part's record; the next one is written over it
 *   array    the part's array, which an operation may write
 *   rows     the four information rows, which an operation may write
 *   wp_high  1 if the pin WP# is high, 0 if it is low, in all steps
 *   input    the bytes of all transactions, one after the other
 *   lengths  how many of them are the transaction of each step: 1 to 4,096
 *   ticks    how many ticks pass after it: 0 to 4,096; on a part of 512 blocks any number
 *   output   as many bytes as the input; those of a transaction are in the same places as its input
 *   answers  the number of each step's transaction is written here
 *   done     how many of each step's ticks did work is written here
 *
 * Steps are counted from 0. Each of the four lists has one entry for each step, and lengths_len, ticks_len,
 * answers_len and done_len count entries, not bytes. Record, array, rows, output, answers and done are written: none of
 * them overlaps another, nor the input, lengths or ticks. First driven places are not reported.
 *
 * Before the first step these are looked for, in this order, and the first that applies is the number:
 *   1  if the array's length is not that of the record's size, or that size is not valid;
 *   2  if rows_len is not 1,024;
 *   7  if the four lists differ in length, or the lengths do not add up to input_len;
 *   4  if output_len is not input_len;
 *   5  if the bytes hold no record, the record is not sound, or wp_high is neither 0 nor 1.
 * Nothing is then written, and YAWLSPAR_STEP is 0. If the bytes hold no record, there is no size to check: the number
 * is then 2, 7, 4 or 5.
 *
 * Otherwise the steps are done in turn. The script stops at the first one with a call that is refused. YAWLSPAR_STEP is
 * that step, and the number is
 *   3  if its length is 0 or above 4,096: 3 is written to its answer and 0 to its ticks done, its output is left as it
 *      was, and none of its ticks pass;
 *   6  if its ticks are above 4,096, on a part of less than 512 blocks: the transaction has been made, its answer and
 *      its output are written, and 0 is written to its ticks done.
 * What the steps before the stop did stays done; of output, answers and done nothing is written for those after it.
 * With 20 to 28 the part ignored a transaction. That is its answer, and the script goes on.
 *
 * If no step stops it, the number is 0 and YAWLSPAR_STEP is the number of steps. A script of no steps answers 0 and 0,
 * and changes nothing.
 */
uint64_t yawlspar_script(uint8_t *record, size_t record_len, uint8_t *array, size_t array_len,
                         uint8_t *rows, size_t rows_len, uint64_t wp_high, const uint8_t *input,
                         size_t input_len, const uint16_t *lengths, size_t lengths_len,
                         const uint16_t *ticks, size_t ticks_len, uint8_t *output, size_t output_len,
                         uint8_t *answers, size_t answers_len, uint16_t *done, size_t done_len);

/*
 * A check: does this script bring this image into the part? It runs the script, as yawlspar_script does, and then
 * compares the array with the image.
 *
 *   record to done   as in yawlspar_script, in the same order
 *   image            what the array should hold at the end: as many bytes as the array. It is only read
 *
 * Record, array, rows, output, answers and done end as yawlspar_script leaves them: a check is no trial on a copy, and
 * to check a second script from the same start the caller keeps copies. None of these six overlaps the image.
 *
 * Before the first step these are looked for, in this order, and the first that applies is the number:
 *   1   if the array's length is not that of the record's size, or that size is not valid;
 *   38  if image_len is not array_len;
 *   2   if rows_len is not 1,024;
 *   7   if the four lists differ in length, or the lengths do not add up to input_len;
 *   4   if output_len is not input_len;
 *   5   if the bytes hold no record, the record is not sound, or wp_high is neither 0 nor 1.
 * Nothing is then written, and verdict and where are 0. If the bytes hold no record, there is no size to check: the
 * number is then 38, 2, 7, 4 or 5.
 *
 * Otherwise the number is 0, even where the script stops at a step. YAWLSPAR_VERDICT is the first of these that applies:
 *   YAWLSPAR_AT_STEP     if a step failed: its transaction's answer is not 0, or the script stopped at it, by its length
 *                        or by its ticks. YAWLSPAR_WHERE is the first such step. 20 to 28 are failures as well, though
 *                        the script goes on after them;
 *   YAWLSPAR_AT_STEP     if none failed, but the part is not idle at the end: something still runs, or is suspended.
 *                        YAWLSPAR_WHERE is the number of steps;
 *   YAWLSPAR_AT_ADDRESS  if the array is not the image. YAWLSPAR_WHERE is the first address where they differ;
 *   YAWLSPAR_YES         else: every step was executed, the part is idle, and the array is the image. YAWLSPAR_WHERE
 *                        is 0.
 * So the whole result is 0 exactly if the answer is yes. The verdict alone does not say it: it is 0 in a check that is
 * refused, too.
 *
 * Steps and addresses are counted from 0, and YAWLSPAR_WHERE is given modulo 2^48, which no memory reaches. A part that
 * is asleep, or whose WEL is 1, is idle too. The rows and the registers are not judged.
 *
 * A script with one fault in it can still have the verdict YES, if the fault does no harm. The other way round, the
 * verdict is always YES if the part is idle and awake at the start, no block is protected, and the script
 *   - erases each sector in which a bit has to go from 0 to 1, once and by a sector erase, and no other;
 *   - then programs each byte that still differs, once and with its wanted value, and no other, in programs of 1 to 256
 *     bytes that stay within their pages;
 *   - has 06h right before each of these commands;
 *   - lets 16 ticks or more pass after each erase, and after each program one or more for each byte, but in no step more
 *     than a call takes;
 *   - and has no other step.
 */
#define YAWLSPAR_YES 0
#define YAWLSPAR_AT_STEP 1
#define YAWLSPAR_AT_ADDRESS 2
uint64_t yawlspar_check(uint8_t *record, size_t record_len, uint8_t *array, size_t array_len,
                        uint8_t *rows, size_t rows_len, uint64_t wp_high, const uint8_t *input,
                        size_t input_len, const uint16_t *lengths, size_t lengths_len,
                        const uint16_t *ticks, size_t ticks_len, uint8_t *output, size_t output_len,
                        uint8_t *answers, size_t answers_len, uint16_t *done, size_t done_len,
                        const uint8_t *image, size_t image_len);

/*
 * The map of blank pages, for a program that looks for pages it can program without an erase. It is a buffer of
 * YAWLSPAR_MAP_BYTES(blocks) bytes that belongs to the caller, with one bit for each page of 256 bytes, low bit first:
 * page p, the bytes from p * 256 on, is bit p % 8 of byte p / 8. A part has blocks * 256 pages. A map is right if each
 * bit is 1 exactly if all bytes of its page are FFh.
 *
 * yawlspar_map_rebuild makes the right map of an array. yawlspar_tick_map and yawlspar_script_map keep it: they do what
 * yawlspar_tick and yawlspar_script do, and of the map they change only bits of pages that a working tick reached. These
 * are right afterwards, whatever the map held; all other bits are as they were. So a right map stays right, and a wrong
 * bit stays wrong until a tick reaches its page. A tick of a program reaches the page that it programs, even where it
 * leaves FFh there, and a tick of an erase the page that it sets. A tick that works on a row or a register reaches no
 * page of the array.
 *
 * A transaction never writes the array: yawlspar_transact leaves a right map right and is not lent one. Whoever changes
 * the array in another way, by yawlspar_tick, yawlspar_script or yawlspar_check or by hand, makes the map anew.
 */
#define YAWLSPAR_MAP_BYTES(blocks) ((blocks) * 32)

/*
 * Makes the map of an array.
 *
 *   blocks   the size of the array in blocks: 1, 4, 8, 16 or 512
 *   array    blocks * 65536 bytes, which are only read
 *   map      YAWLSPAR_MAP_BYTES(blocks) bytes, all of which are written. What they held does not matter
 *
 * The map does not overlap the array. The number is
 *   0   if the map was made: it is then right;
 *   1   if blocks is not 1, 4, 8, 16 or 512, or array_len is not blocks * 65536;
 *   36  if map_len is not YAWLSPAR_MAP_BYTES(blocks).
 * The bits above the number are 0.
 */
uint64_t yawlspar_map_rebuild(uint64_t blocks, const uint8_t *array, size_t array_len, uint8_t *map, size_t map_len);

/*
 * Gives the first blank page at or after a page, by the map alone: the first page from it on whose bit is 1.
 *
 *   blocks   the size of the array in blocks: 1, 4, 8, 16 or 512
 *   map      YAWLSPAR_MAP_BYTES(blocks) bytes, which are only read
 *   page     the page to begin at: below blocks * 256
 *
 * The number is
 *   0   if the question was answered;
 *   1   if blocks is not 1, 4, 8, 16 or 512;
 *   36  if map_len is not YAWLSPAR_MAP_BYTES(blocks);
 *   37  if page is blocks * 256 or more.
 * YAWLSPAR_PAGE is the page, which may be the given one; or blocks * 256, the number of pages, if the bits of the given
 * page and of all after it are 0.
 */
uint64_t yawlspar_map_next(uint64_t blocks, const uint8_t *map, size_t map_len, uint64_t page);

/*
 * Time passes, as in yawlspar_tick, and the map is kept.
 *
 *   record to ticks   as in yawlspar_tick, in the same order
 *   map               the map of the array: YAWLSPAR_MAP_BYTES bytes of the record's size
 *
 * Record, array, rows and map are written: none of them overlaps another. Record, array and rows end as yawlspar_tick
 * leaves them, and the result is what it gives, but for 36. These are looked for, in this order, and the first that
 * applies is the number:
 *   1   if the array's length is not that of the record's size, or that size is not valid;
 *   36  if map_len is not YAWLSPAR_MAP_BYTES of that size;
 *   2   if rows_len is not 1,024;
 *   5   if the bytes hold no record, or the record is not sound;
 *   6   if ticks is above 4,096, on a part of 512 blocks above 131,072.
 * Otherwise it is 0. If the bytes hold no record, there is no size to check, neither by the array nor by the map: the
 * number is then 2 or 5, whatever the map's length. YAWLSPAR_TICKS is how many of the ticks did work.
 */
uint64_t yawlspar_tick_map(uint8_t *record, size_t record_len, uint8_t *array, size_t array_len,
                           uint8_t *rows, size_t rows_len, uint64_t ticks, uint8_t *map, size_t map_len);

/*
 * A script, as in yawlspar_script, and the map is kept.
 *
 *   record to done   as in yawlspar_script, in the same order
 *   map              the map of the array: YAWLSPAR_MAP_BYTES bytes of the record's size
 *
 * Record, array, rows, output, answers, done and map are written: none of them overlaps another, nor the input, lengths
 * or ticks. All but the map end as yawlspar_script leaves them, and the result is what it gives, but for 36. Before the
 * first step these are looked for, in this order, and the first that applies is the number:
 *   1   if the array's length is not that of the record's size, or that size is not valid;
 *   36  if map_len is not YAWLSPAR_MAP_BYTES of that size;
 *   2   if rows_len is not 1,024;
 *   7   if the four lists differ in length, or the lengths do not add up to input_len;
 *   4   if output_len is not input_len;
 *   5   if the bytes hold no record, the record is not sound, or wp_high is neither 0 nor 1.
 * Nothing is then written, and YAWLSPAR_STEP is 0. If the bytes hold no record, there is no size to check, neither by the
 * array nor by the map: the number is then 2, 7, 4 or 5, whatever the map's length.
 *
 * Otherwise the steps are done in turn, each of them yawlspar_transact and then yawlspar_tick_map. Where the script stops
 * at a step, with 3 or 6, the map has what the ticks before the stop made of it.
 */
uint64_t yawlspar_script_map(uint8_t *record, size_t record_len, uint8_t *array, size_t array_len,
                             uint8_t *rows, size_t rows_len, uint64_t wp_high, const uint8_t *input,
                             size_t input_len, const uint16_t *lengths, size_t lengths_len,
                             const uint16_t *ticks, size_t ticks_len, uint8_t *output, size_t output_len,
                             uint8_t *answers, size_t answers_len, uint16_t *done, size_t done_len,
                             uint8_t *map, size_t map_len);

/*
 * Wear, in whole numbers: how often each sector of 4 Kbyte was erased and programmed. It is a list of
 * YAWLSPAR_SECTORS(blocks) records that belongs to the caller: record s is that of sector s, the 4,096 bytes from
 * s * 4096 on. The caller sets all of them to zero, lends the list to each call that makes ticks, and reads the counts
 * whenever it likes. yawlspar_tick_wear and yawlspar_script_wear keep them: they do what yawlspar_tick and
 * yawlspar_script do, and count. yawlspar_wear_text makes a text of them.
 *
 * These ticks count, and no other:
 *   - the tick of an erase that finishes a sector, which is each 16th tick of it: its 16th, 32nd and so on. The sector
 *     that it finishes has one erase more. So an erase of a sector counts once, one of 32 Kbyte in 8 sectors, one of
 *     64 Kbyte in 16, and a chip erase in all. An erase that is cut by a reset, or that is suspended and never resumed,
 *     has counted the sectors that it finished. One that is resumed goes on counting where it was;
 *   - the last tick of a page program: the sector of its page has one program more, whatever the bytes are, and however
 *     few. A program that is cut before its last tick counts nothing. One within a suspended erase counts as any other.
 * Transactions count nothing, nor do ticks of rows and registers.
 *
 * A count that is 4,294,967,295 is full: it stays there. As long as no count is full, the counts are those of all ticks
 * since the records were zero. What yawlspar_tick, yawlspar_script, yawlspar_check and the calls with a map do is not
 * counted: a program that mixes them with the calls below leaves that out. The records are no part of the part: neither
 * power-up nor reset changes them, and what they hold before a call does not matter to it.
 */
typedef struct {
    uint32_t erases, programs;
} yawlspar_wear;
#define YAWLSPAR_SECTORS(blocks) ((blocks) * 16)
#define YAWLSPAR_WEAR_TEXT_BYTES(blocks) ((blocks) * 512 + 64)

/*
 * Time passes, as in yawlspar_tick, and wear is counted.
 *
 *   record to ticks   as in yawlspar_tick, in the same order
 *   wear              YAWLSPAR_SECTORS records of the record's size; wear_len counts records, not bytes
 *
 * Record, array, rows and wear are written: none of them overlaps another. Record, array and rows end as yawlspar_tick
 * leaves them, and the result is what it gives, but for 35. These are looked for, in this order, and the first that
 * applies is the number:
 *   1   if the array's length is not that of the record's size, or that size is not valid;
 *   35  if wear_len is not YAWLSPAR_SECTORS of that size;
 *   2   if rows_len is not 1,024;
 *   5   if the bytes hold no record, or the record is not sound;
 *   6   if ticks is above 4,096, on a part of 512 blocks above 131,072.
 * Otherwise it is 0. If the bytes hold no record, there is no size to check, neither by the array nor by the wear: the
 * number is then 2 or 5, whatever wear_len is. YAWLSPAR_TICKS is how many of the ticks did work.
 */
uint64_t yawlspar_tick_wear(uint8_t *record, size_t record_len, uint8_t *array, size_t array_len,
                            uint8_t *rows, size_t rows_len, uint64_t ticks, yawlspar_wear *wear, size_t wear_len);

/*
 * A script, as in yawlspar_script, and wear is counted.
 *
 *   record to done   as in yawlspar_script, in the same order
 *   wear             YAWLSPAR_SECTORS records of the record's size; wear_len counts records, not bytes
 *
 * Record, array, rows, output, answers, done and wear are written: none of them overlaps another, nor the input, lengths
 * or ticks. All but the wear end as yawlspar_script leaves them, and the result is what it gives, but for 35. Before the
 * first step these are looked for, in this order, and the first that applies is the number:
 *   1   if the array's length is not that of the record's size, or that size is not valid;
 *   35  if wear_len is not YAWLSPAR_SECTORS of that size;
 *   2   if rows_len is not 1,024;
 *   7   if the four lists differ in length, or the lengths do not add up to input_len;
 *   4   if output_len is not input_len;
 *   5   if the bytes hold no record, the record is not sound, or wp_high is neither 0 nor 1.
 * Nothing is then written, and YAWLSPAR_STEP is 0. If the bytes hold no record, there is no size to check, neither by the
 * array nor by the wear: the number is then 2, 7, 4 or 5, whatever wear_len is.
 *
 * Otherwise the steps are done in turn, each of them yawlspar_transact and then yawlspar_tick_wear. Where the script
 * stops at a step, with 3 or 6, the ticks before the stop are counted.
 */
uint64_t yawlspar_script_wear(uint8_t *record, size_t record_len, uint8_t *array, size_t array_len,
                              uint8_t *rows, size_t rows_len, uint64_t wp_high, const uint8_t *input,
                              size_t input_len, const uint16_t *lengths, size_t lengths_len,
                              const uint16_t *ticks, size_t ticks_len, uint8_t *output, size_t output_len,
                              uint8_t *answers, size_t answers_len, uint16_t *done, size_t done_len,
                              yawlspar_wear *wear, size_t wear_len);

/*
 * Writes the counts as text: a line for each sector, from sector 0 on, and two lines for all of them. Each line ends in
 * a line feed, the last one too, and there is no 0 byte behind it.
 *
 *   12 3 40                 sector 12 has 3 erases and 40 programs: decimal numbers with one space between them
 *   13 4294967295 2 full    ` full` stands at the end where one of the two counts is full, or both
 *   largest 7 40            the largest count of erases of any sector, and the largest of programs, perhaps of another
 *   total 52 318            all erases and all programs, as sums of 64 bits, which no counts are too large for
 *
 *   blocks   the size of the part in blocks: 1, 4, 8, 16 or 512
 *   wear     YAWLSPAR_SECTORS(blocks) records, which are only read; wear_len counts records, not bytes
 *   text     YAWLSPAR_WEAR_TEXT_BYTES(blocks) bytes, which any counts fit in
 *
 * The text does not overlap the wear. These are looked for, in this order, and the first that applies is the number:
 *   1   if blocks is not 1, 4, 8, 16 or 512;
 *   35  if wear_len is not YAWLSPAR_SECTORS(blocks);
 *   4   if text_len is not YAWLSPAR_WEAR_TEXT_BYTES(blocks).
 * Otherwise it is 0. YAWLSPAR_LENGTH is how many bytes were written, from the first byte of the text on; those behind them
 * are as they were. It is 0 if the call is refused, and nothing is written.
 */
uint64_t yawlspar_wear_text(uint64_t blocks, const yawlspar_wear *wear, size_t wear_len, uint8_t *text,
                            size_t text_len);

#ifdef __cplusplus
}
#endif

#endif
