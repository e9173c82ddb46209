/* Steps of the directed calls: see steps.h. */
#include "steps.h"

extern int memcmp(const void *, const void *, unsigned long);
extern void *memcpy(void *, const void *, unsigned long);

/* ---- Results ---- */

void result_is(const struct call *call, uint64_t number, uint64_t above)
{
    uint64_t got = step(call);

    if (YAWLSPAR_NUMBER(got) != number)
        fail(call, "the number", number, YAWLSPAR_NUMBER(got));
    if (YAWLSPAR_PLACE(got) != above || YAWLSPAR_TICKS(got) != above)
        fail(call, "the number above the low 8 bits", above, YAWLSPAR_PLACE(got));
}

void number_is(const struct call *call, uint64_t number)
{
    result_is(call, number, 0);
}

void powered_with(uint32_t blocks, uint8_t status, uint8_t function, uint8_t extended)
{
    struct call call = fitting(POWER_UP);

    call.blocks = blocks;
    call.maker = 0x11;
    call.type = 0x22;
    call.capacity = 0x33;
    call.device = 0x44;
    call.status = status;
    call.function = function;
    call.extended = extended;
    result_is(&call, 0, 0);
}

void powered(uint32_t blocks)
{
    powered_with(blocks, 0, 0, 0);
}

void sent_at(uint64_t wp_high, const void *bytes, size_t length, uint64_t number, uint64_t place)
{
    struct call call = fitting(TRANSACT);

    memcpy(message, bytes, length);
    call.input = call.output = length;
    call.wp_high = wp_high;
    result_is(&call, number, place);
}

void sent(const void *bytes, size_t length, uint64_t number, uint64_t place)
{
    sent_at(1, bytes, length, number, place);
}

void output_is(size_t place, uint8_t expected)
{
    struct call call = fitting(TRANSACT);

    if (model.output[place] != expected)
        fail(&call, "an output byte of the last call", expected, model.output[place]);
}

void command(const void *bytes, size_t length, uint64_t number)
{
    sent(bytes, length, number, length);
}

void command_with(uint8_t code, uint8_t byte, uint64_t number)
{
    const uint8_t bytes[] = {code, byte};

    command(bytes, 2, number);
}

void ticked(uint64_t ticks, uint64_t number, uint64_t worked)
{
    struct call call = fitting(TICK);

    call.ticks = ticks;
    result_is(&call, number, worked);
}

void shows(uint8_t expected)
{
    sent("\x81\x00\x00", 3, 0, 1);
    output_is(0, 0xFF);
    output_is(1, expected);
    output_is(2, expected);
}

void status_is(uint8_t expected)
{
    sent("\x05\x00", 2, 0, 1);
    output_is(1, expected);
}

void registers_are(uint8_t status, uint8_t function, uint8_t extended)
{
    status_is(status);
    sent("\x48\x00", 2, 0, 1);
    output_is(1, function);
    shows(extended);
}

void reset(void)
{
    command("\x66", 1, 0);
    command("\x99", 1, 0);
}

/* ---- What the array has to hold ---- */

static uint8_t stored[REF_LARGE * REF_BLOCK];
static bool filled;
static bool changed[REF_LARGE]; /* blocks that were changed since they were filled */

size_t stored_length(void)
{
    return fitting(TICK).array;
}

static size_t stored_blocks(void)
{
    return stored_length() / REF_BLOCK;
}

void forget_stored(void)
{
    filled = false;
}

static void places_are_as_stored(size_t from, size_t length)
{
    struct call call = fitting(TICK);
    size_t i = from;

    if (memcmp(model.array + from, stored + from, length) == 0)
        return;
    while (model.array[i] == stored[i])
        i++;
    fail(&call, "the first place of the array that is not as worked out", stored_length(), i);
}

static void fill_block(size_t block)
{
    size_t i, end = (block + 1) * REF_BLOCK;

    for (i = block * REF_BLOCK; i < end; i++)
        stored[i] = (uint8_t)((i + i / 256 * 3) % 255);
    memcpy(model.array + block * REF_BLOCK, stored + block * REF_BLOCK, REF_BLOCK);
    memcpy(reference.array + block * REF_BLOCK, stored + block * REF_BLOCK, REF_BLOCK);
    changed[block] = false;
}

/* Of 512 blocks those that were changed are looked at once more and filled again; the others still hold what they were
 * filled with, or are found when all are looked at. */
void fill_stored(void)
{
    size_t block;

    for (block = 0; block < stored_blocks(); block++) {
        if (filled && changed[block])
            places_are_as_stored(block * REF_BLOCK, REF_BLOCK);
        if (!filled || changed[block] || stored_blocks() < REF_LARGE)
            fill_block(block);
    }
    filled = true;
}

uint8_t stored_byte(size_t address)
{
    return stored[address % stored_length()];
}

uint8_t *change_stored(size_t address, size_t length)
{
    size_t block;

    for (block = address / REF_BLOCK; block * REF_BLOCK < address + length; block++)
        changed[block] = true;
    return stored + address;
}

static bool is_beside_a_change(size_t block)
{
    return changed[block] || (block > 0 && changed[block - 1]) ||
           (block + 1 < stored_blocks() && changed[block + 1]);
}

void array_is_as_stored(void)
{
    size_t block;

    for (block = 0; block < stored_blocks(); block++)
        if (stored_blocks() < REF_LARGE || is_beside_a_change(block))
            places_are_as_stored(block * REF_BLOCK, REF_BLOCK);
}

void whole_array_is_as_stored(void)
{
    places_are_as_stored(0, stored_length());
}
