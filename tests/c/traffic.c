/* Random sequences of calls: made-up traffic (tests/traffic/) and, between its steps, calls that are refused.
 *
 * A sequence is on a part of one size. Most scenes begin with a part that is ready, the others with what the last
 * one left. What becomes of the steps is up to the takers: random_calls makes a call of each, and random_scripts, in
 * scripts.c, makes scripts of them. */
#include "both.h"

#include "../traffic/traffic.h"

extern void *memcpy(void *, const void *, unsigned long);

static uint8_t locks; /* the rows that this sequence may lock */
static const struct takers *take;

static uint64_t pick(const uint64_t *list, size_t count)
{
    return list[below((uint32_t)count)];
}

/* ---- Calls that are refused ---- */

static const uint64_t no_bytes[] = {256, 257, 511, 65536, UINT64_C(1) << 32, (UINT64_C(1) << 32) + 4,
                                    UINT64_C(1) << 63, UINT64_MAX - 255, UINT64_MAX};

static size_t wrong_record_length(void)
{
    static const size_t lengths[] = {0,
                                     1,
                                     256,
                                     YAWLSPAR_RECORD_BYTES - 1,
                                     YAWLSPAR_RECORD_BYTES + 1,
                                     YAWLSPAR_RECORD_BYTES + 8,
                                     RECORD_ROOM};

    return lengths[below(COUNT(lengths))];
}

static size_t wrong_array_length(void)
{
    static const uint64_t sizes[] = {0, 1, 2, 4, 8, 16}, large_sizes[] = {0, 1, 16, 256, 511, REF_LARGE, 513};
    size_t right = fitting(TICK).array;

    switch (below(4)) {
    case 0:
        return right - between(1, 256);
    case 1:
        return right + between(1, REF_BLOCK);
    default: /* that of another size, or now and then the right one */
        return (part.size == REF_LARGE ? pick(large_sizes, COUNT(large_sizes)) : pick(sizes, COUNT(sizes))) * REF_BLOCK;
    }
}

static size_t wrong_rows_length(void)
{
    static const size_t lengths[] = {0, 1, 256, 1023, 1025, ROWS_ROOM};

    return lengths[below(COUNT(lengths))];
}

static size_t wrong_message_length(void)
{
    static const size_t lengths[] = {0, 0, REF_MOST + 1, REF_MOST + 2, MESSAGE_ROOM};

    return lengths[below(COUNT(lengths))];
}

static size_t wrong_output_length(size_t input)
{
    switch (below(4)) {
    case 0:
        return input + 1 <= MESSAGE_ROOM ? input + 1 : 0;
    case 1:
        return input > 0 ? input - 1 : 1;
    case 2:
        return 0;
    default:
        return below(MESSAGE_ROOM);
    }
}

static uint64_t too_many_ticks(void)
{
    static const uint64_t ticks[] = {1, 2, 4096, 61440, 131072};
    static const uint64_t great[] = {UINT64_C(1) << 32, (UINT64_C(1) << 32) + 1, (UINT64_C(1) << 32) + 131072,
                                     UINT64_C(1) << 63, UINT64_MAX};

    return one_in(2) ? traffic_ticks_most() + pick(ticks, COUNT(ticks)) : pick(great, COUNT(great));
}

/* One thing of the call is spoilt that its kind looks at. */
static void spoil(struct call *call)
{
    switch (below(call->kind == TICK ? 4 : 6)) {
    case 0:
        call->array = wrong_array_length();
        break;
    case 1:
        call->rows = wrong_rows_length();
        break;
    case 2:
        call->record = wrong_record_length();
        break;
    case 3:
        if (call->kind == TICK)
            call->ticks = too_many_ticks();
        else
            call->wp_high = one_in(2) ? 2 : pick(no_bytes, COUNT(no_bytes));
        break;
    case 4:
        call->input = wrong_message_length();
        break;
    default:
        call->output = wrong_output_length(call->input);
        break;
    }
}

static void strange_transact(void)
{
    static const uint8_t openings[] = {0x03, 0x05, 0x06, 0x66, 0x99, 0x9F, 0xC7, 0x04, 0xB9, 0xAB,
                                       0x75, 0x7A, 0x81, 0x82, 0x83, 0x85, 0xB7, 0x29, 0xC8, 0x13};
    struct call call = fitting(TRANSACT);

    message[0] = pick_byte(openings, COUNT(openings));
    call.input = call.output = one_in(4) ? between(1, 300) : 1;
    do
        spoil(&call);
    while (one_in(2));
    step(&call);
}

static void strange_tick(void)
{
    struct call call = fitting(TICK);

    call.ticks = below(40);
    do
        spoil(&call);
    while (one_in(2));
    step(&call);
}

static struct call random_power_up(void)
{
    struct call call = fitting(POWER_UP);

    call.maker = any_byte();
    call.type = any_byte();
    call.capacity = any_byte();
    call.device = any_byte();
    call.status = one_in(2) ? 0 : any_byte() & 0xFC;
    call.function = one_in(2) ? 0 : any_byte() & locks & 0xF0;
    if (call.blocks == REF_LARGE && one_in(2))
        call.function |= 0x02; /* TBS */
    call.extended = one_in(4) ? 0 : any_byte() & 0xE0;
    return call;
}

static void spoil_number(struct call *call)
{
    uint64_t *numbers[] = {&call->maker,  &call->type,     &call->capacity, &call->device,
                           &call->status, &call->function, &call->extended};

    *numbers[below(COUNT(numbers))] = pick(no_bytes, COUNT(no_bytes));
}

static void spoil_power_up(struct call *call)
{
    static const uint64_t no_sizes[] = {0, 2, 3, 5, 7, 9, 12, 15, 17, 32, 64, 256, 257, 260, 511, 513, 1024, 65536,
                                        UINT64_C(1) << 32, (UINT64_C(1) << 32) + 16, (UINT64_C(1) << 32) + 512,
                                        UINT64_MAX};
    static const uint8_t zero_bits[] = {0x01, 0x04, 0x08, 0x03, 0x0D, 0x0F};

    switch (below(6)) {
    case 0:
        call->blocks = pick(no_sizes, COUNT(no_sizes));
        break;
    case 1:
        spoil_number(call);
        break;
    case 2:
        call->status |= between(1, 3);
        break;
    case 3: /* not TBS alone on 512 blocks, where it is good */
        call->function |= call->blocks == REF_LARGE ? pick_byte(zero_bits, COUNT(zero_bits)) : between(1, 15);
        break;
    case 4:
        call->extended |= between(1, 31);
        break;
    default:
        do
            call->record = wrong_record_length();
        while (call->record == YAWLSPAR_RECORD_BYTES);
        break;
    }
}

static void strange_power_up(void)
{
    static const uint64_t sizes[] = {1, 4, 8, 16, REF_LARGE};
    struct call call = random_power_up();

    call.blocks = pick(sizes, COUNT(sizes));
    do
        spoil_power_up(&call);
    while (one_in(2));
    step(&call);
}

static void make_strange_call(void)
{
    switch (below(5)) {
    case 0:
        strange_power_up();
        break;
    case 1:
    case 2:
        strange_transact();
        break;
    case 3:
        strange_tick();
        break;
    default:
        traffic_wait(below(21));
        break;
    }
}

/* ---- Calls of the traffic ---- */

static void make_power_up(const struct call *call)
{
    step(call);
}

static void make_transaction(bool wp_high, const uint8_t *bytes, size_t length)
{
    struct call call = fitting(TRANSACT);

    memcpy(message, bytes, length);
    call.input = call.output = length;
    call.wp_high = wp_high;
    step(&call);
}

static void make_ticks(uint32_t ticks)
{
    struct call call = fitting(TICK);

    call.ticks = ticks;
    step(&call);
}

static void do_nothing(void)
{
}

static const struct takers at_once = {do_nothing, make_power_up,     make_transaction,
                                      make_ticks, make_strange_call, do_nothing};

void traffic_send(bool wp_high, const uint8_t *bytes, size_t length)
{
    take->send(wp_high, bytes, length);
}

void traffic_wait(uint32_t ticks)
{
    take->wait(ticks);
}

void traffic_strange(void)
{
    take->strange();
}

/* ---- The sequence ---- */

static void power_up(void)
{
    struct call call = random_power_up();

    take->power_up(&call);
}

/* Brings the part back to where a driver can use it: awake, idle, and mostly unprotected. */
static void make_ready(void)
{
    if (part.asleep)
        send_code(0xAB);
    if (part.phase == NESTED)
        traffic_wait(REF_PAGE);
    if (part.phase == SUSPENDED)
        send_code(one_in(2) ? 0x7A : 0x30);
    if (part.phase == BUSY && one_in(2)) {
        send_code(0x66);
        send_code(0x99);
    }
    if (part.phase == BUSY)
        traffic_wait(traffic_ticks_most());
    if ((part.status & 0x3C) != 0 && !one_in(4))
        unprotect();
}

/* Calls on bytes that hold no record yet. */
static void before_power_up(void)
{
    uint32_t count = below(4);

    for (; count > 0; count--)
        traffic_strange();
}

static void any_scene(void)
{
    if (one_in(100))
        power_up();
    if (!one_in(4)) {
        take->settle();
        make_ready();
    }
    play_scene();
}

static void chapter(void)
{
    uint32_t scenes = between(5, 40);

    begin_chapter();
    allow_locks(one_in(4) ? locks : 0);
    for (; scenes > 0; scenes--)
        any_scene();
}

void play_traffic(const struct takers *takers, const char *name, uint64_t seed, uint64_t least)
{
    static const uint32_t sizes[] = {1, 16, 4, 8, 1, REF_LARGE, 4};
    struct limits limits = {.message_most = REF_MOST, .long_one_in = 12, .blocks = sizes[seed % COUNT(sizes)]};
    uint64_t end = calls + least;

    take = takers;
    begin_traffic(seed, &limits);
    locks = one_in(3) ? 0 : any_byte();
    begin_run(name, seed, limits.blocks);
    take->begin();
    before_power_up();
    power_up();
    while (calls < end)
        chapter();
    take->settle();
    end_run();
}

void random_calls(uint64_t seed, uint64_t least)
{
    play_traffic(&at_once, "random calls", seed, least);
}
