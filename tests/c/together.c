/* A script that is put together step by step: see together.h. */
#include "together.h"

#include "steps.h"

extern void *memcpy(void *, const void *, unsigned long);
extern void *memset(void *, int, unsigned long);

size_t steps, bytes;

void no_steps(void)
{
    steps = 0;
    bytes = 0;
}

void add(const void *sent, size_t length, uint32_t ticks)
{
    memcpy(script.input + bytes, sent, length);
    script.lengths[steps] = (uint16_t)length;
    script.ticks[steps] = (uint16_t)ticks;
    bytes += length;
    steps++;
}

void add_long(uint8_t code, size_t length, uint32_t ticks)
{
    memset(script.input + bytes, 0, length);
    if (length > 0)
        script.input[bytes] = code;
    add(script.input + bytes, length, ticks);
}

void add_code(uint8_t code, uint32_t ticks)
{
    add(&code, 1, ticks);
}

bool fits_step(uint32_t ticks)
{
    return steps > 0 && ticks <= 65535;
}

void add_ticks(uint32_t ticks)
{
    if (script.ticks[steps - 1] != 0)
        add_code(0x05, 0);
    script.ticks[steps - 1] = (uint16_t)ticks;
}

struct call whole_call(enum call_kind kind)
{
    struct call call = fitting(kind);

    call.input = call.output = bytes;
    call.lengths = call.tick_counts = call.answers = call.done = steps;
    return call;
}

/* ---- The same calls one by one ---- */

static enum call_kind ticks_of(const struct call *script_call)
{
    return script_call->kind == SCRIPT_WEAR ? TICK_WEAR : TICK;
}

/* The number before the first step: 1, 35, 2, 7, 4, 5 in this order. 1, 35, 2 and 5 are those of a call with no ticks,
 * which gives no 1 and no 35 where the bytes hold no record. */
static uint64_t number_before_steps(const struct side *side, const struct call *call)
{
    struct call lent = *call;
    uint64_t number;

    lent.kind = ticks_of(call);
    lent.ticks = 0;
    number = YAWLSPAR_NUMBER(call_model(side, &lent));
    if (number == 1 || number == 35 || number == 2)
        return number;
    if (!lists_fit(call))
        return 7;
    if (call->output != call->input)
        return 4;
    return call->wp_high > 1 ? 5 : number;
}

static uint64_t transact_singly(const struct side *side, const struct call *call, size_t from, size_t length)
{
    struct side here = *side;
    struct call one = *call;

    here.input += from;
    here.output += from;
    one.kind = TRANSACT;
    one.input = one.output = length;
    return YAWLSPAR_NUMBER(call_model(&here, &one));
}

static uint64_t tick_singly(const struct side *side, const struct call *call, uint64_t ticks)
{
    struct call one = *call;

    one.kind = ticks_of(call);
    one.ticks = ticks;
    return call_model(side, &one);
}

uint64_t make_one_by_one(const struct side *side, const struct call *call)
{
    uint64_t result = number_before_steps(side, call);
    size_t from = 0, k;

    if (result != 0)
        return result;
    for (k = 0; k < call->lengths; k++) {
        result = transact_singly(side, call, from, script.lengths[k]);
        side->answers[k] = (uint8_t)result;
        side->done[k] = 0;
        if (is_refusal(result))
            return result + 256 * k;
        result = tick_singly(side, call, script.ticks[k]);
        side->done[k] = (uint16_t)YAWLSPAR_TICKS(result);
        if (is_refusal(result))
            return result + 256 * k;
        from += script.lengths[k];
    }
    return 256 * k;
}

/* ---- Calls on all sides ---- */

uint64_t make_call(const struct call *call)
{
    uint64_t got, again;

    prepare_side(&single, call);
    got = step(call);
    again = call_model(&single, call);
    if (got != again)
        fail_result(call, got, again);
    return got;
}

uint64_t make_transaction(const void *sent, size_t length)
{
    struct call call = fitting(TRANSACT);

    memcpy(message, sent, length);
    call.input = call.output = length;
    return make_call(&call);
}

void make_ticks(uint32_t ticks)
{
    struct call call = fitting(TICK);

    call.ticks = ticks;
    make_call(&call);
}

void fresh(uint8_t status, uint8_t function)
{
    powered_with((uint32_t)(stored_length() / REF_BLOCK), status, function, 0x60);
    memcpy(single.record, model.record, YAWLSPAR_RECORD_BYTES);
}

bool on_large(void)
{
    return stored_length() == (size_t)REF_LARGE * REF_BLOCK;
}

/* ---- Faults ---- */

static size_t by_one(size_t length, uint32_t which)
{
    return which % 2 == 0 || length == 0 ? length + 1 : length - 1;
}

/* One of the four lists is longer or shorter by one; a longer one's last length is 0. */
static void spoil_list(struct call *call, uint32_t which)
{
    size_t *const lists[] = {&call->lengths, &call->tick_counts, &call->answers, &call->done};
    size_t *list = lists[which / 2 % 4];

    script.lengths[steps] = 0;
    script.ticks[steps] = 0;
    *list = by_one(*list, which);
}

/* The input is longer or shorter than the lengths by one, and the output with it. */
static void spoil_sum(struct call *call, uint32_t which)
{
    call->input = by_one(call->input, which);
    call->output = call->input;
}

/* The image is longer or shorter than the array by one, it is empty, or as long as a block. A part of one block may be
 * handed an empty array; its image is then longer. */
static void spoil_image(struct call *call, uint32_t which)
{
    static const size_t lengths[] = {0, REF_BLOCK};

    call->image = which % 3 == 2 ? lengths[which / 3 % 2] : by_one(call->array, which / 3);
    if (call->image == call->array)
        call->image++;
}

/* The map is longer or shorter by one, it is empty, or that of another size. */
static void spoil_map(struct call *call, uint32_t which)
{
    static const uint32_t sizes[] = {0, 1, 4, 8, 16, REF_LARGE};
    size_t other = YAWLSPAR_MAP_BYTES((size_t)sizes[which / 3 % COUNT(sizes)]);

    call->map = which % 3 == 2 && other != call->map ? other : by_one(call->map, which);
}

/* One record more or less, none, or those of another size. */
static void spoil_wear(struct call *call, uint32_t which)
{
    static const uint32_t sizes[] = {0, 1, 4, 8, 16, REF_LARGE};
    size_t other = YAWLSPAR_SECTORS((size_t)sizes[which / 3 % COUNT(sizes)]);

    call->wear = which % 3 == 2 && other != call->wear ? other : by_one(call->wear, which);
}

void spoil_call(struct call *call, uint32_t faults, uint32_t which)
{
    if ((faults & WEAR) != 0)
        spoil_wear(call, which);
    if ((faults & ARRAY) != 0)
        call->array = by_one(call->array, which);
    if ((faults & MAP) != 0)
        spoil_map(call, which);
    call->image = call->array;
    if ((faults & IMAGE) != 0)
        spoil_image(call, which);
    if ((faults & ROWS) != 0)
        call->rows = by_one(call->rows, which / 2);
    if ((faults & LISTS) != 0)
        spoil_list(call, which);
    if ((faults & SUM) != 0)
        spoil_sum(call, which / 3);
    if ((faults & OUTPUT) != 0)
        call->output = by_one(call->output, which / 4);
    if ((faults & LEVEL) != 0)
        call->wp_high = which % 3 == 0 ? 2 : which % 3 == 1 ? (UINT64_C(1) << 32) + 1 : UINT64_MAX;
}

uint64_t refused_with(uint32_t faults, bool record)
{
    if (record && (faults & ARRAY) != 0)
        return 1;
    if (record && (faults & WEAR) != 0)
        return 35;
    if (record && (faults & MAP) != 0)
        return 36;
    if ((faults & IMAGE) != 0)
        return 38;
    if ((faults & ROWS) != 0)
        return 2;
    if ((faults & (LISTS | SUM)) != 0)
        return 7;
    if ((faults & OUTPUT) != 0)
        return 4;
    return !record || (faults & LEVEL) != 0 ? 5 : 0;
}

size_t no_record_length(uint32_t which)
{
    static const size_t lengths[] = {0, 1, YAWLSPAR_RECORD_BYTES - 1, YAWLSPAR_RECORD_BYTES + 1, RECORD_ROOM};

    return lengths[which % COUNT(lengths)];
}

/* ---- Steps of random traffic ---- */

#define BYTES_ENOUGH 200000u

uint64_t level;
size_t steps_enough;

void gather(bool wp_high, const uint8_t *sent, size_t length, void (*run_steps)(void))
{
    if (steps >= steps_enough || bytes + length > BYTES_ENOUGH)
        run_steps();
    if (steps == 0)
        level = wp_high;
    add(sent, length, 0);
}
