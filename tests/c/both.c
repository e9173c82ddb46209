/* The two models in step: see both.h. */
#include "both.h"

extern int printf(const char *format, ...) __attribute__((format(printf, 1, 2)));
extern void exit(int status) __attribute__((noreturn));
extern int memcmp(const void *, const void *, unsigned long);
extern void *memcpy(void *, const void *, unsigned long);
extern void *memset(void *, int, unsigned long);

#define GUARD 64u
#define SKEWS 16u /* a buffer may begin at any place modulo 16 */
#define AROUND (2u * GUARD + SKEWS)
#define SIDES 4

struct side model, reference, single, split;
struct part part;
uint8_t message[MESSAGE_ROOM];
struct script script;
uint64_t calls, scripts, script_steps, checks, check_steps, map_calls, wear_calls;

static const char *run_name;
static uint64_t run_seed, run_calls;
static uint32_t run_blocks;

/* ---- Reports ---- */

static void tell_power_up(const struct call *call)
{
    printf("yawlspar_power_up(record of %zu, blocks %llu, maker %llu, type %llu, capacity %llu, device %llu, "
           "status 0x%llX, function 0x%llX, extended 0x%llX)\n",
           call->record, (unsigned long long)call->blocks, (unsigned long long)call->maker,
           (unsigned long long)call->type, (unsigned long long)call->capacity,
           (unsigned long long)call->device, (unsigned long long)call->status,
           (unsigned long long)call->function, (unsigned long long)call->extended);
}

static void tell_input(const uint8_t *bytes, size_t length)
{
    size_t shown = length < 24 ? length : 24, i;

    printf("input of %zu:", length);
    for (i = 0; i < shown; i++)
        printf(" %02X", bytes[i]);
    printf("%s, ", shown < length ? " .." : "");
}

static void tell_transact(const struct call *call)
{
    printf("yawlspar_transact(record of %zu, array of %zu, rows of %zu, wp_high %llu, ", call->record, call->array,
           call->rows, (unsigned long long)call->wp_high);
    tell_input(message, call->input);
    printf("output of %zu)\n", call->output);
}

static void tell_list(const char *name, const uint16_t *list, size_t length)
{
    size_t shown = length < 16 ? length : 16, i;

    printf("%s of %zu:", name, length);
    for (i = 0; i < shown; i++)
        printf(" %u", list[i]);
    printf("%s, ", shown < length ? " .." : "");
}

/* Of ticks, scripts and checks. */
static const char *name_of(enum call_kind kind)
{
    switch (kind) {
    case CHECK:
        return "check";
    case SCRIPT:
        return "script";
    case SCRIPT_MAP:
        return "script_map";
    case SCRIPT_WEAR:
        return "script_wear";
    case TICK_MAP:
        return "tick_map";
    case TICK_WEAR:
        return "tick_wear";
    default:
        return "tick";
    }
}

/* What is lent beside the part, and the end of the line. */
static void tell_beside(const struct call *call)
{
    if (call->kind == TICK_MAP || call->kind == SCRIPT_MAP)
        printf(", map of %zu", call->map);
    if (call->kind == TICK_WEAR || call->kind == SCRIPT_WEAR)
        printf(", wear of %zu records", call->wear);
    printf(")\n");
}

static void tell_script(const struct call *call)
{
    printf("yawlspar_%s(record of %zu, array of %zu, rows of %zu, wp_high %llu, ", name_of(call->kind), call->record,
           call->array, call->rows, (unsigned long long)call->wp_high);
    tell_input(script.input, call->input);
    tell_list("lengths", script.lengths, call->lengths);
    tell_list("ticks", script.ticks, call->tick_counts);
    printf("output of %zu, answers of %zu, done of %zu", call->output, call->answers, call->done);
    if (call->kind == CHECK)
        printf(", image of %zu", call->image);
    tell_beside(call);
}

static void tell_tick(const struct call *call)
{
    printf("yawlspar_%s(record of %zu, array of %zu, rows of %zu, ticks %llu", name_of(call->kind), call->record,
           call->array, call->rows, (unsigned long long)call->ticks);
    tell_beside(call);
}

static void tell_rebuild(const struct call *call)
{
    printf("yawlspar_map_rebuild(blocks %llu, array of %zu, map of %zu)\n", (unsigned long long)call->blocks,
           call->array, call->map);
}

static void tell_next(const struct call *call)
{
    printf("yawlspar_map_next(blocks %llu, map of %zu, page %llu)\n", (unsigned long long)call->blocks, call->map,
           (unsigned long long)call->page);
}

static void tell_text(const struct call *call)
{
    printf("yawlspar_wear_text(blocks %llu, wear of %zu records, text of %zu)\n", (unsigned long long)call->blocks,
           call->wear, call->text);
}

static void tell(const struct call *call)
{
    printf("%s: %s, seed %llu, %u blocks, call %llu:\n  ", program_name, run_name, (unsigned long long)run_seed,
           (unsigned)run_blocks, (unsigned long long)run_calls);
    switch (call->kind) {
    case POWER_UP:
        tell_power_up(call);
        break;
    case TRANSACT:
        tell_transact(call);
        break;
    case SCRIPT:
    case CHECK:
    case SCRIPT_MAP:
    case SCRIPT_WEAR:
        tell_script(call);
        break;
    case WEAR_TEXT:
        tell_text(call);
        break;
    case MAP_REBUILD:
        tell_rebuild(call);
        break;
    case MAP_NEXT:
        tell_next(call);
        break;
    default:
        tell_tick(call);
        break;
    }
}

static void end_differing(void) __attribute__((noreturn));

static void end_differing(void)
{
    printf("%s: %llu calls compared, 1 difference\n", program_name, (unsigned long long)calls);
    exit(1);
}

void fail(const struct call *call, const char *what, uint64_t expected, uint64_t got)
{
    tell(call);
    printf("  %s: expected %llu, got %llu\n", what, (unsigned long long)expected, (unsigned long long)got);
    end_differing();
}

static void tell_result(const struct call *call, uint64_t result)
{
    if (call->kind == CHECK)
        printf("number %llu, verdict %llu and %llu", (unsigned long long)YAWLSPAR_NUMBER(result),
               (unsigned long long)YAWLSPAR_VERDICT(result), (unsigned long long)YAWLSPAR_WHERE(result));
    else
        printf("number %llu and %llu", (unsigned long long)YAWLSPAR_NUMBER(result),
               (unsigned long long)YAWLSPAR_PLACE(result));
}

void fail_result(const struct call *call, uint64_t expected, uint64_t got)
{
    tell(call);
    printf("  the result: expected ");
    tell_result(call, expected);
    printf(", got ");
    tell_result(call, got);
    printf("\n");
    end_differing();
}

static void fail_byte(const struct call *call, const char *what, long place, size_t length, uint8_t expected,
                      uint8_t got) __attribute__((noreturn));

static void fail_byte(const struct call *call, const char *what, long place, size_t length, uint8_t expected,
                      uint8_t got)
{
    bool inside = place >= 0 && (size_t)place < length;

    tell(call);
    printf("  the %s at %ld%s: expected %02Xh, got %02Xh\n", what, place, inside ? "" : ", outside of it", expected,
           got);
    end_differing();
}

/* ---- Memory ---- */

/* How much of ARRAY_ROOM a run uses: more than it is lent, but not all of it where 16 blocks do. */
static size_t array_room(void)
{
    return run_blocks == REF_LARGE ? ARRAY_ROOM : 17 * REF_BLOCK;
}

/* Where a buffer of this room begins in its store. The bytes around it, and after a lent length, are guards. */
static uint8_t *place_in(uint8_t *store, size_t room, uint32_t skew)
{
    size_t i;

    for (i = 0; i < room + AROUND; i++)
        store[i] = (uint8_t)(i * 37 + 11);
    return store + GUARD + skew;
}

static void set_guard(uint8_t *end)
{
    size_t i;

    for (i = 0; i < GUARD; i++)
        end[i] = (uint8_t)(i * 29 + 7);
}

/* The same for a buffer that is written before each call: its bytes need not be set here. */
static uint8_t *begin_in(uint8_t *store, uint32_t skew)
{
    return place_in(store, 0, skew);
}

/* The same for a list of numbers of 16 bits, which begins at an even place. */
static uint16_t *begin_list(uint16_t *store, uint32_t skew)
{
    begin_in((uint8_t *)store, 0);
    return store + (GUARD + skew) / 2;
}

static void make_side(struct side *side, int which, uint64_t seed)
{
    static uint8_t record[SIDES][RECORD_ROOM + AROUND], array[SIDES][ARRAY_ROOM + AROUND],
        rows[SIDES][ROWS_ROOM + AROUND], input[SIDES][SCRIPT_ROOM + AROUND], output[SIDES][SCRIPT_ROOM + AROUND],
        answers[SIDES][STEPS_ROOM + AROUND];
    static uint16_t lengths[SIDES][STEPS_ROOM + AROUND], ticks[SIDES][STEPS_ROOM + AROUND],
        done[SIDES][STEPS_ROOM + AROUND];
    struct chance chance = {seed};

    side->record = place_in(record[which], RECORD_ROOM, number_below(&chance, SKEWS));
    side->array = place_in(array[which], array_room(), number_below(&chance, SKEWS));
    side->rows = place_in(rows[which], ROWS_ROOM, number_below(&chance, SKEWS));
    side->input = begin_in(input[which], number_below(&chance, SKEWS));
    side->output = begin_in(output[which], number_below(&chance, SKEWS));
    side->answers = begin_in(answers[which], number_below(&chance, SKEWS));
    side->lengths = begin_list(lengths[which], number_below(&chance, SKEWS));
    side->ticks = begin_list(ticks[which], number_below(&chance, SKEWS));
    side->done = begin_list(done[which], number_below(&chance, SKEWS));
}

void fill(uint8_t *bytes, size_t length, struct chance *chance)
{
    size_t i;
    uint64_t number;

    memset(bytes, 0xFF, length);
    if (number_below(chance, 4) == 0)
        return;
    for (i = 0; i + sizeof number <= length; i += sizeof number) {
        number = next_number(chance);
        memcpy(bytes + i, &number, sizeof number);
    }
}

void name_run(const char *name)
{
    run_name = name;
}

void begin_run(const char *name, uint64_t seed, uint32_t blocks)
{
    struct chance chance = {seed};

    name_run(name);
    run_seed = seed;
    run_calls = 0;
    run_blocks = blocks;
    memset(&part, 0, sizeof part);
    memset(message, 0, sizeof message);
    model.image = reference.image = single.image = NULL;
    model.map = reference.map = single.map = NULL;
    model.wear = reference.wear = single.wear = split.wear = NULL;
    model.text = reference.text = single.text = split.text = NULL;
    make_side(&model, 0, seed);
    make_side(&reference, 1, seed);
    fill(model.array, blocks * REF_BLOCK, &chance);
    fill(model.rows, REF_ROWS, &chance);
    memcpy(reference.array, model.array, blocks * REF_BLOCK);
    memcpy(reference.rows, model.rows, REF_ROWS);
}

static void begin_side(struct side *side, int which)
{
    make_side(side, which, run_seed);
    memcpy(side->record, model.record, RECORD_ROOM);
    memcpy(side->array, model.array, run_blocks * REF_BLOCK);
    memcpy(side->rows, model.rows, REF_ROWS);
}

void begin_single(void)
{
    begin_side(&single, 2);
}

void begin_split(void)
{
    begin_side(&split, 3);
}

void begin_images(void)
{
    static uint8_t images[2][ARRAY_ROOM + AROUND];

    model.image = place_in(images[0], array_room(), (uint32_t)(run_seed * 7 % SKEWS));
    reference.image = place_in(images[1], array_room(), (uint32_t)(run_seed * 7 % SKEWS));
    memcpy(model.image, model.array, run_blocks * REF_BLOCK);
    memcpy(reference.image, model.array, run_blocks * REF_BLOCK);
    single.image = reference.image;
}

void begin_maps(void)
{
    static uint8_t maps[2][MAP_ROOM + AROUND];

    model.map = place_in(maps[0], MAP_ROOM, (uint32_t)(run_seed * 5 % SKEWS));
    reference.map = place_in(maps[1], MAP_ROOM, (uint32_t)(run_seed * 5 % SKEWS));
    single.map = reference.map;
}

/* A record of wear begins at a place that is good for its numbers, and for no more than these: each fourth one. */
void begin_wear(void)
{
    static uint32_t wear[3][2 * WEAR_ROOM + AROUND];
    static uint8_t texts[3][TEXT_ROOM + AROUND];
    struct side *const sides[] = {&model, &reference, &split};
    uint32_t skew = (uint32_t)(run_seed * 4 % SKEWS), i;

    for (i = 0; i < COUNT(sides); i++) {
        sides[i]->wear = (yawlspar_wear *)(void *)place_in((uint8_t *)wear[i], sizeof wear[i] - AROUND, skew);
        sides[i]->text = place_in(texts[i], TEXT_ROOM, (uint32_t)(run_seed * 3 % SKEWS));
    }
    single.wear = reference.wear;
    single.text = reference.text;
}

/* ---- Comparing ---- */

/* A script or a check of one. */
static bool has_steps(const struct call *call)
{
    return call->kind == SCRIPT || call->kind == CHECK || call->kind == SCRIPT_MAP || call->kind == SCRIPT_WEAR;
}

static bool is_tick(const struct call *call)
{
    return call->kind == TICK || call->kind == TICK_MAP || call->kind == TICK_WEAR;
}

/* Compares `length` bytes from `from` on, and tells the first difference. `whole` is the buffer's lent length. */
static void same(const struct call *call, const char *what, const uint8_t *got, const uint8_t *expected, long from,
                 size_t length, size_t whole)
{
    size_t i = 0;

    if (memcmp(got + from, expected + from, length) == 0)
        return;
    while (got[from + (long)i] == expected[from + (long)i])
        i++;
    fail_byte(call, what, from + (long)i, whole, expected[from + (long)i], got[from + (long)i]);
}

/* Compares a buffer, and the guards around it. */
static void same_buffer(const struct call *call, const char *what, const uint8_t *got, const uint8_t *expected,
                        size_t lent, size_t right)
{
    size_t length = lent > right ? lent : right;

    same(call, what, got, expected, -(long)GUARD, GUARD + length + GUARD, length);
}

static void same_guards(const struct call *call, const char *what, const uint8_t *got, const uint8_t *expected,
                        size_t length)
{
    same(call, what, got, expected, -(long)GUARD, GUARD, length);
    same(call, what, got, expected, (long)length, GUARD, length);
}

static size_t array_length(void)
{
    return (size_t)run_blocks * REF_BLOCK;
}

static void same_array(const struct call *call)
{
    same_buffer(call, "array", model.array, reference.array, call->array, array_length());
}

/* Places in it are those of bytes, two for each number. */
static void same_list(const struct call *call, const char *what, const uint16_t *got, const uint16_t *expected,
                      size_t length)
{
    same_buffer(call, what, (const uint8_t *)got, (const uint8_t *)expected, 2 * length, 0);
}

static size_t map_length(void)
{
    return YAWLSPAR_MAP_BYTES((size_t)run_blocks);
}

static size_t sector_count(void)
{
    return YAWLSPAR_SECTORS((size_t)run_blocks);
}

static size_t text_length(void)
{
    return YAWLSPAR_WEAR_TEXT_BYTES((size_t)run_blocks);
}

/* Places in the wear are those of bytes: four for each count, its erases and then its programs. */
static void same_wear(const struct call *call)
{
    same_buffer(call, "bytes of the wear", (const uint8_t *)model.wear, (const uint8_t *)reference.wear,
                sizeof *model.wear * call->wear, sizeof *model.wear * sector_count());
    if (call->kind == WEAR_TEXT)
        same_buffer(call, "text", model.text, reference.text, call->text, text_length());
}

static void same_but_array(const struct call *call)
{
    same_buffer(call, "rows", model.rows, reference.rows, call->rows, REF_ROWS);
    if (model.map != NULL)
        same_buffer(call, "map", model.map, reference.map, call->map, map_length());
    if (model.wear != NULL)
        same_wear(call);
    if (call->kind == TRANSACT || has_steps(call)) {
        same_buffer(call, "input", model.input, reference.input, call->input, 0);
        same_buffer(call, "output", model.output, reference.output, call->output, 0);
    }
    if (has_steps(call)) {
        same_list(call, "bytes of the lengths", model.lengths, reference.lengths, call->lengths);
        same_list(call, "bytes of the tick counts", model.ticks, reference.ticks, call->tick_counts);
        same_buffer(call, "answers", model.answers, reference.answers, call->answers, 0);
        same_list(call, "bytes of the ticks done", model.done, reference.done, call->done);
    }
}

static void same_image(const struct call *call)
{
    if (model.image != NULL)
        same_buffer(call, "image", model.image, reference.image, call->image, array_length());
}

void same_memory(const struct call *call)
{
    same_but_array(call);
    same_array(call);
    same_image(call);
}

void same_record(const struct call *call)
{
    same_buffer(call, "record", model.record, reference.record, call->record, YAWLSPAR_RECORD_BYTES);
}

/* The array is compared whole after each refusal, after ticks that did work, and after a script. After other calls
 * larger arrays are compared more rarely, so that each size costs the same. */
static bool whole_is_due(const struct call *call, uint64_t expected)
{
    return is_refusal(expected) || has_steps(call) || (is_tick(call) && YAWLSPAR_TICKS(expected) > 0) ||
           run_calls % run_blocks == 0;
}

/* 512 blocks are not compared whole after each call that is due. After each call these places are compared:
 *   - the guards, and a window that moves on with each call and so comes to every place;
 *   - after ticks, the unit or page of the operation that ran, with a page on each side; a chip erase's is the array;
 *   - the unit or page of an operation that now begins or goes on, before it is written over.
 * The whole is compared at the end of the run. So a byte that a call leaves wrong is found, if late: it stays wrong
 * until an operation writes over it, and that operation's unit is compared before it does and after each call of its
 * ticks. Operations that begin and end within one script are not looked at here: scripts.c compares the whole more
 * often, and check.c what its scripts write. The image of a check is compared as the array is, at the window's place. */
#define WINDOW (64u * REF_PAGE)

static bool runs(const struct part *at)
{
    return at->phase == BUSY || at->phase == NESTED;
}

static bool is_on_array(const struct operation *op)
{
    return op->kind == PP || op->kind == SER || op->kind == BER32 || op->kind == BER64 || op->kind == CER;
}

static size_t reach_of(const struct operation *op)
{
    switch (op->kind) {
    case PP:
        return REF_PAGE;
    case SER:
        return 4096;
    case BER32:
        return 32768;
    case BER64:
        return 65536;
    default:
        return array_length();
    }
}

void same_places(const struct call *call, size_t from, size_t length)
{
    size_t to = from + length + REF_PAGE;

    from = from < REF_PAGE ? 0 : from - REF_PAGE;
    to = to > array_length() ? array_length() : to;
    same(call, "array", model.array, reference.array, (long)from, to - from, array_length());
}

static void same_window(const struct call *call)
{
    size_t windows = array_length() / WINDOW;
    size_t from = (size_t)(run_calls * 1021 % windows) * WINDOW; /* 1,021 is odd: all come in turn */

    same_guards(call, "array", model.array, reference.array, array_length());
    same_places(call, from, WINDOW);
    if (call->kind == CHECK) {
        same_guards(call, "image", model.image, reference.image, array_length());
        same(call, "image", model.image, reference.image, (long)from, WINDOW, array_length());
    }
}

static void compare_large_array(const struct call *call, const struct part *before, uint64_t expected)
{
    bool worked = has_steps(call) || (is_tick(call) && YAWLSPAR_TICKS(expected) > 0);

    same_window(call);
    if (worked && is_on_array(&before->op))
        same_places(call, before->op.base, reach_of(&before->op));
    if (runs(&part) && (has_steps(call) || !runs(before)) && is_on_array(&part.op))
        same_places(call, part.op.base, reach_of(&part.op));
}

static void compare_memory(const struct call *call, const struct part *before, uint64_t expected)
{
    same_but_array(call);
    if (run_blocks == REF_LARGE)
        compare_large_array(call, before, expected);
    else if (whole_is_due(call, expected))
        same_array(call);
    else
        same_guards(call, "array", model.array, reference.array, array_length());
    if (call->kind == CHECK && run_blocks != REF_LARGE)
        same_image(call);
}

void same_memory_in_part(const struct call *call)
{
    same_but_array(call);
    if (run_blocks == REF_LARGE)
        same_window(call);
    else
        same_array(call);
}

void compare_with(const struct side *other, const struct call *call, void (*memory)(const struct call *call))
{
    struct side kept = reference;

    reference = *other;
    same_record(call);
    memory(call);
    reference = kept;
}

void compare_with_single(const struct call *call, void (*memory)(const struct call *call))
{
    compare_with(&single, call, memory);
}

static bool same_operation(const struct operation *a, const struct operation *b)
{
    return a->kind == b->kind && a->base == b->base && a->start == b->start && a->count == b->count &&
           a->done == b->done && a->held == b->held;
}

static bool same_part(const struct part *a, const struct part *b)
{
    return a->size == b->size && a->m == b->m && a->t == b->t && a->c == b->c && a->d == b->d &&
           a->status == b->status && a->function == b->function && a->extended == b->extended &&
           a->live == b->live && a->e_err == b->e_err && a->p_err == b->p_err && a->prot_e == b->prot_e &&
           a->bank == b->bank && a->wel == b->wel && a->armed == b->armed && a->asleep == b->asleep &&
           a->phase == b->phase &&
           same_operation(&a->op, &b->op) && same_operation(&a->outer, &b->outer) &&
           memcmp(a->data, b->data, REF_PAGE) == 0;
}

/* A call changes the record's bytes exactly when the reference's record changes, which is never if it is refused. */
static void compare_record(const struct call *call, const struct part *before)
{
    bool changed;

    if (same_part(before, &part)) {
        same_record(call);
        return;
    }
    same_guards(call, "record", model.record, reference.record, YAWLSPAR_RECORD_BYTES);
    changed = memcmp(model.record, reference.record, YAWLSPAR_RECORD_BYTES) != 0;
    if (!changed)
        fail(call, "whether the record's bytes changed", 1, 0);
    memcpy(reference.record, model.record, YAWLSPAR_RECORD_BYTES);
}

/* ---- What is expected ---- */

static bool are_bytes(const struct call *call)
{
    return call->maker < 256 && call->type < 256 && call->capacity < 256 && call->device < 256 &&
           call->status < 256 && call->function < 256 && call->extended < 256;
}

static bool holds_record(const struct call *call)
{
    return call->record == YAWLSPAR_RECORD_BYTES && part.size != 0;
}

static uint64_t expect_power_up(const struct call *call)
{
    struct part fresh;
    int number;

    if (!ref_size_ok(call->blocks))
        return 1;
    if (call->record != YAWLSPAR_RECORD_BYTES || !are_bytes(call))
        return 5;
    number = ref_power_up(&fresh, (uint32_t)call->blocks, (uint8_t)call->maker, (uint8_t)call->type,
                          (uint8_t)call->capacity, (uint8_t)call->device, (uint8_t)call->status,
                          (uint8_t)call->function, (uint8_t)call->extended);
    if (number == 0)
        part = fresh;
    return (uint64_t)number;
}

bool lists_fit(const struct call *call)
{
    uint64_t sum = 0;
    size_t i;

    for (i = 0; i < call->lengths; i++)
        sum += script.lengths[i];
    return call->tick_counts == call->lengths && call->answers == call->lengths && call->done == call->lengths &&
           sum == call->input;
}

/* The number of a transaction that is a 5: the numbers 2 to 4 are lower, and need no record. Of a script 2, 7 and 4
 * come before it, of a check 38 and these. */
static uint64_t expect_five(const struct call *call)
{
    if (call->kind == CHECK && call->image != call->array)
        return 38;
    if (call->rows != REF_ROWS)
        return 2;
    if (call->kind == TRANSACT && (call->input == 0 || call->input > REF_MOST))
        return 3;
    if (has_steps(call) && !lists_fit(call))
        return 7;
    return call->output != call->input ? 4 : 5;
}

/* A level that is neither 0 nor 1 is a 5, and what goes by the record's size is judged first: 1, of a map 36, and of wear
 * 35. */
static uint64_t expect_bad_level(const struct call *call)
{
    if (call->array != (size_t)part.size * REF_BLOCK)
        return 1;
    if (call->kind == SCRIPT_MAP && call->map != YAWLSPAR_MAP_BYTES((size_t)part.size))
        return 36;
    if (call->kind == SCRIPT_WEAR && call->wear != YAWLSPAR_SECTORS((size_t)part.size))
        return 35;
    return expect_five(call);
}

static uint64_t expect_transact(const struct call *call)
{
    size_t first;
    int number;

    if (!holds_record(call))
        return expect_five(call);
    if (call->wp_high > 1)
        return expect_bad_level(call);
    number = ref_transact(&part, reference.array, call->array, reference.rows, call->rows, call->wp_high == 1,
                          reference.input, call->input, reference.output, call->output, &first);
    return (uint64_t)number + 256 * (uint64_t)first;
}

/* The reference's records are its own: they are carried over and back. */
static struct wear worn[WEAR_ROOM];

static struct wear *carry_over(const struct call *call)
{
    size_t i;

    for (i = 0; i < call->wear && i < WEAR_ROOM; i++)
        worn[i] = (struct wear){reference.wear[i].erases, reference.wear[i].programs};
    return worn;
}

static void carry_back(const struct call *call)
{
    size_t i;

    for (i = 0; i < call->wear && i < WEAR_ROOM; i++)
        reference.wear[i] = (yawlspar_wear){worn[i].erases, worn[i].programs};
}

static int reference_tick_wear(const struct call *call, uint32_t ticks, uint32_t *worked)
{
    int number = ref_tick_wear(&part, reference.array, call->array, reference.rows, call->rows, ticks, worked,
                               carry_over(call), call->wear);

    carry_back(call);
    return number;
}

static int reference_script_wear(const struct call *call, size_t *at)
{
    int number = ref_script_wear(&part, reference.array, call->array, reference.rows, call->rows, call->wp_high == 1,
                                 reference.input, call->input, reference.lengths, call->lengths, reference.ticks,
                                 call->tick_counts, reference.output, call->output, reference.answers, call->answers,
                                 reference.done, call->done, at, carry_over(call), call->wear);

    carry_back(call);
    return number;
}

static uint64_t expect_text(const struct call *call)
{
    size_t length;
    int number = ref_wear_text(call->blocks, carry_over(call), call->wear, reference.text, call->text, &length);

    return (uint64_t)number + 256 * (uint64_t)length;
}

static uint64_t expect_tick(const struct call *call)
{
    uint32_t ticks = call->ticks < UINT32_MAX ? (uint32_t)call->ticks : UINT32_MAX, worked;
    int number;

    if (!holds_record(call))
        return call->rows != REF_ROWS ? 2 : 5;
    if (call->kind == TICK_MAP)
        number = ref_tick_map(&part, reference.array, call->array, reference.rows, call->rows, ticks, &worked,
                              reference.map, call->map);
    else if (call->kind == TICK_WEAR)
        number = reference_tick_wear(call, ticks, &worked);
    else
        number = ref_tick(&part, reference.array, call->array, reference.rows, call->rows, ticks, &worked);
    return (uint64_t)number + 256 * (uint64_t)worked;
}

static uint64_t expect_script(const struct call *call)
{
    size_t at;
    int number;

    if (!holds_record(call))
        return expect_five(call);
    if (call->wp_high > 1)
        return expect_bad_level(call);
    if (call->kind == SCRIPT_MAP)
        number = ref_script_map(&part, reference.array, call->array, reference.rows, call->rows, call->wp_high == 1,
                                reference.input, call->input, reference.lengths, call->lengths, reference.ticks,
                                call->tick_counts, reference.output, call->output, reference.answers, call->answers,
                                reference.done, call->done, &at, reference.map, call->map);
    else if (call->kind == SCRIPT_WEAR)
        number = reference_script_wear(call, &at);
    else
        number = ref_script(&part, reference.array, call->array, reference.rows, call->rows, call->wp_high == 1,
                            reference.input, call->input, reference.lengths, call->lengths, reference.ticks,
                            call->tick_counts, reference.output, call->output, reference.answers, call->answers,
                            reference.done, call->done, &at);
    return (uint64_t)number + 256 * (uint64_t)at;
}

static uint64_t expect_check(const struct call *call)
{
    enum verdict verdict;
    size_t where;
    int number;

    if (!holds_record(call))
        return expect_five(call);
    if (call->wp_high > 1)
        return expect_bad_level(call);
    number = ref_check(&part, reference.array, call->array, reference.rows, call->rows, call->wp_high == 1,
                       reference.input, call->input, reference.lengths, call->lengths, reference.ticks,
                       call->tick_counts, reference.output, call->output, reference.answers, call->answers,
                       reference.done, call->done, reference.image, call->image, &verdict, &where);
    return (uint64_t)number + 256 * (uint64_t)verdict + 65536 * (uint64_t)where;
}

static uint64_t expect_rebuild(const struct call *call)
{
    return (uint64_t)ref_map_rebuild(call->blocks, reference.array, call->array, reference.map, call->map);
}

static uint64_t expect_next(const struct call *call)
{
    uint32_t next;
    int number = ref_map_next(call->blocks, reference.map, call->map, call->page, &next);

    return (uint64_t)number + 256 * (uint64_t)next;
}

static uint64_t expect(const struct call *call)
{
    switch (call->kind) {
    case POWER_UP:
        return expect_power_up(call);
    case TRANSACT:
        return expect_transact(call);
    case SCRIPT:
    case SCRIPT_MAP:
    case SCRIPT_WEAR:
        return expect_script(call);
    case CHECK:
        return expect_check(call);
    case MAP_REBUILD:
        return expect_rebuild(call);
    case MAP_NEXT:
        return expect_next(call);
    case WEAR_TEXT:
        return expect_text(call);
    default:
        return expect_tick(call);
    }
}

/* ---- Calls ---- */

bool is_refusal(uint64_t result)
{
    uint64_t number = YAWLSPAR_NUMBER(result);

    return (number >= 1 && number <= 7) || (number >= 35 && number <= 38);
}

struct call fitting(enum call_kind kind)
{
    struct call call = {.kind = kind,
                        .record = YAWLSPAR_RECORD_BYTES,
                        .array = array_length(),
                        .rows = REF_ROWS,
                        .image = array_length(),
                        .map = map_length(),
                        .wear = sector_count(),
                        .text = text_length(),
                        .wp_high = 1,
                        .blocks = run_blocks};

    call.input = call.output = has_steps(&call) ? 0 : 1;
    return call;
}

uint64_t call_model(const struct side *side, const struct call *call)
{
    calls++;
    run_calls++;
    switch (call->kind) {
    case POWER_UP:
        return yawlspar_power_up(side->record, call->record, call->blocks, call->maker, call->type, call->capacity,
                                 call->device, call->status, call->function, call->extended);
    case TRANSACT:
        return yawlspar_transact(side->record, call->record, side->array, call->array, side->rows, call->rows,
                                 call->wp_high, side->input, call->input, side->output, call->output);
    case SCRIPT:
        scripts++;
        script_steps += call->lengths;
        return yawlspar_script(side->record, call->record, side->array, call->array, side->rows, call->rows,
                               call->wp_high, side->input, call->input, side->lengths, call->lengths, side->ticks,
                               call->tick_counts, side->output, call->output, side->answers, call->answers, side->done,
                               call->done);
    case CHECK:
        checks++;
        check_steps += call->lengths;
        return yawlspar_check(side->record, call->record, side->array, call->array, side->rows, call->rows,
                              call->wp_high, side->input, call->input, side->lengths, call->lengths, side->ticks,
                              call->tick_counts, side->output, call->output, side->answers, call->answers, side->done,
                              call->done, side->image, call->image);
    case MAP_REBUILD:
        map_calls++;
        return yawlspar_map_rebuild(call->blocks, side->array, call->array, side->map, call->map);
    case MAP_NEXT:
        map_calls++;
        return yawlspar_map_next(call->blocks, side->map, call->map, call->page);
    case TICK_MAP:
        map_calls++;
        return yawlspar_tick_map(side->record, call->record, side->array, call->array, side->rows, call->rows,
                                 call->ticks, side->map, call->map);
    case SCRIPT_MAP:
        map_calls++;
        script_steps += call->lengths;
        return yawlspar_script_map(side->record, call->record, side->array, call->array, side->rows, call->rows,
                                   call->wp_high, side->input, call->input, side->lengths, call->lengths, side->ticks,
                                   call->tick_counts, side->output, call->output, side->answers, call->answers,
                                   side->done, call->done, side->map, call->map);
    case TICK_WEAR:
        wear_calls++;
        return yawlspar_tick_wear(side->record, call->record, side->array, call->array, side->rows, call->rows,
                                  call->ticks, side->wear, call->wear);
    case SCRIPT_WEAR:
        wear_calls++;
        script_steps += call->lengths;
        return yawlspar_script_wear(side->record, call->record, side->array, call->array, side->rows, call->rows,
                                    call->wp_high, side->input, call->input, side->lengths, call->lengths, side->ticks,
                                    call->tick_counts, side->output, call->output, side->answers, call->answers,
                                    side->done, call->done, side->wear, call->wear);
    case WEAR_TEXT:
        wear_calls++;
        return yawlspar_wear_text(call->blocks, side->wear, call->wear, side->text, call->text);
    default:
        return yawlspar_tick(side->record, call->record, side->array, call->array, side->rows, call->rows,
                             call->ticks);
    }
}

static void prepare_messages(const struct side *side, const struct call *call, const uint8_t *input)
{
    memcpy(side->input, input, call->input);
    set_guard(side->input + call->input);
    memset(side->output, (int)(run_calls % 251), call->output);
    set_guard(side->output + call->output);
}

/* What the lists for answers and ticks done hold is no answer, and more ticks than were asked. */
static void prepare_lists(const struct side *side, const struct call *call)
{
    memcpy(side->lengths, script.lengths, 2 * call->lengths);
    set_guard((uint8_t *)(side->lengths + call->lengths));
    memcpy(side->ticks, script.ticks, 2 * call->tick_counts);
    set_guard((uint8_t *)(side->ticks + call->tick_counts));
    memset(side->answers, (int)(29 + run_calls % 200), call->answers);
    set_guard(side->answers + call->answers);
    memset(side->done, (int)(128 + run_calls % 127), 2 * call->done);
    set_guard((uint8_t *)(side->done + call->done));
}

/* All of it is set: what is behind a text that is written stays. */
static void prepare_text(const struct side *side, const struct call *call)
{
    size_t length = call->text > text_length() ? call->text : text_length();

    memset(side->text, (int)(128 + run_calls % 127), length);
    set_guard(side->text + length);
}

void prepare_side(const struct side *side, const struct call *call)
{
    if (call->kind == WEAR_TEXT)
        prepare_text(side, call);
    if (call->kind == TRANSACT)
        prepare_messages(side, call, message);
    if (has_steps(call)) {
        prepare_messages(side, call, script.input);
        prepare_lists(side, call);
    }
}

void prepare(const struct call *call)
{
    prepare_side(&model, call);
    prepare_side(&reference, call);
}

uint64_t step(const struct call *call)
{
    struct part before = part;
    uint64_t expected, got;

    prepare(call);
    expected = expect(call);
    got = call_model(&model, call);
    if (got != expected)
        fail_result(call, expected, got);
    compare_memory(call, &before, expected);
    compare_record(call, &before);
    return got;
}

void end_run(void)
{
    struct call nothing = fitting(TICK);

    step(&nothing);
    same_memory(&nothing);
}

bool run_seeds(int argc, char **argv, void (*by_hand)(void), void (*run)(uint64_t seed), uint64_t last)
{
    uint64_t seed = 1;

    if (argc == 1) {
        by_hand();
    } else if (argc != 3 || !seed_of(argv[1], &seed) || !seed_of(argv[2], &last)) {
        printf("usage: %s [FIRST LAST]\n", program_name);
        return false;
    }
    for (; seed <= last; seed++)
        run(seed);
    return true;
}
