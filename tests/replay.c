/* Replays recorded answers of every entry over the archive, without any Rust:
 *
 *     cc -std=c11 -O1 -Iinclude tests/replay.c target/staticlib/libseating.a -o replay
 *     ./replay tests/records.bin
 *
 * rust/harness/src/records.rs writes the file and tells its form. Answers
 * are compared field by field; of every lent slice each element is compared, and
 * the bytes before and behind it. Of a record that fails the first field that is
 * wrong is told. The last line is 'replay: N records, M failed'. */
#include <inttypes.h>
#include <stdbool.h>
#include <stdio.h>
#include <stdlib.h>
#include <string.h>

#include "cendravoka.h"

_Static_assert(sizeof(size_t) == 8, "the file has 8 bytes for a size_t");

/* Bytes on both sides of a slice, the most slices of a call, the failed records
 * that are told, and the most bytes of all records. */
enum { ZONE = 256, SLICES = 15, SHOWN = 20, MOST = 1 << 28 };

static void stop(const char *why)
{
    fprintf(stderr, "replay: %s\n", why);
    exit(1);
}

static void *get_memory(size_t bytes)
{
    void *memory = malloc(bytes > 0 ? bytes : 1);
    if (memory == NULL)
        stop("there is no memory");
    return memory;
}

/* All records, unpacked, and how much of them is read. */
static unsigned char *unpacked;
static size_t unpacked_bytes, read_bytes;

/* A number of the packed file: seven bits a byte, the lowest first. */
static size_t packed_number(FILE *file)
{
    size_t number = 0;
    for (int shift = 0; shift < 63; shift += 7) {
        int byte = getc(file);
        if (byte == EOF)
            stop("the file ends within its records");
        number |= (size_t)(byte & 127) << shift;
        if (byte < 128)
            return number;
    }
    stop("a number of the file is too long");
    return 0;
}

/* By turns bytes that stand as they are, and a stretch that stood before. */
static void unpack(FILE *file)
{
    size_t place = 0;
    unpacked_bytes = packed_number(file);
    if (unpacked_bytes > MOST)
        stop("the records are too long");
    unpacked = get_memory(unpacked_bytes);
    while (place < unpacked_bytes) {
        size_t length = packed_number(file), back;
        if (length > unpacked_bytes - place || fread(unpacked + place, 1, length, file) != length)
            stop("the file ends within its records");
        place += length;
        if (place == unpacked_bytes)
            break;
        length = packed_number(file);
        back = packed_number(file);
        if (length > unpacked_bytes - place || back == 0 || back > place)
            stop("a stretch of the file is of no records");
        for (; length > 0; length--, place++)
            unpacked[place] = unpacked[place - back];
    }
}

static void get(void *into, size_t size)
{
    if (size > unpacked_bytes - read_bytes)
        stop("the file ends within a record");
    memcpy(into, unpacked + read_bytes, size);
    read_bytes += size;
}

/* A number, or a struct of numbers. */
#define GET(place) get(&(place), sizeof(place))

static unsigned char get_byte(void)
{
    unsigned char byte;
    GET(byte);
    return byte;
}

static size_t get_size(void)
{
    size_t size;
    GET(size);
    return size;
}

static uint32_t get_word(void)
{
    uint32_t word;
    GET(word);
    return word;
}

static float get_float(void)
{
    float number;
    GET(number);
    return number;
}

/* What an element is: its bytes, and how it is shown. */
typedef struct {
    size_t size;
    enum { NUMBER, SIGNED, BITS } shown;
} kind;

static const kind U8 = { 1, NUMBER }, U16 = { 2, NUMBER }, U32 = { 4, NUMBER };
static const kind U64 = { 8, NUMBER }, I32 = { 4, SIGNED }, I64 = { 8, SIGNED };
static const kind F32 = { 4, BITS };

/* Of the present record, whether something was wrong, and what was first. */
static bool is_wrong;
static char first_wrong[200];

static void show(char *text, size_t size, const unsigned char *element, kind own)
{
    uint64_t bits = 0;
    memcpy(&bits, element, own.size);
    if (own.shown == BITS)
        snprintf(text, size, "%08" PRIX64, bits);
    else if (own.shown == SIGNED && own.size == 4)
        snprintf(text, size, "%" PRId32, (int32_t)(uint32_t)bits);
    else if (own.shown == SIGNED)
        snprintf(text, size, "%" PRId64, (int64_t)bits);
    else
        snprintf(text, size, "%" PRIu64, bits);
}

/* The place of what stands in no list. */
static const size_t ALONE = SIZE_MAX;

/* An element must be the wanted one. If it is the first that is not, its name is
 * told, with its place in a list, and with both of its values. */
static void compare_element(const unsigned char *given, const unsigned char *wanted, kind own,
                            const char *beside, const char *name, size_t place)
{
    char index[24] = "", is[24], should[24];
    if (is_wrong || memcmp(given, wanted, own.size) == 0)
        return;
    is_wrong = true;
    if (place != ALONE)
        snprintf(index, sizeof index, "[%zu]", place);
    show(is, sizeof is, given, own);
    show(should, sizeof should, wanted, own);
    snprintf(first_wrong, sizeof first_wrong, "%s%s%s is %s, wanted %s", beside, name, index, is,
             should);
}

/* A lent slice, and what must stand in it and around it after the call. */
typedef struct {
    const char *name;
    kind element;
    unsigned char *cells;
    unsigned char *wanted;
    size_t length;
} slice;

static slice slices[SLICES];
static size_t slices_used;

static unsigned char pattern(size_t place)
{
    return (unsigned char)(0xC3 + place * 29 % 61);
}

/* The file is made for this test; no slice of it has as many elements. */
static size_t get_length(void)
{
    size_t length = get_size();
    if (length > 65536)
        stop("a slice is too long");
    return length;
}

/* The stretches that the call must have changed. */
static void get_changes(slice *own)
{
    for (size_t left = get_size(); left > 0; left--) {
        size_t start = get_length(), length = get_length(), size = own->element.size;
        if (start + length > own->length)
            stop("a change lies outside its slice");
        get(own->wanted + ZONE + start * size, length * size);
    }
}

/* The next slice of the record. */
static slice *get_slice(const char *name, kind element)
{
    slice *own = &slices[slices_used++];
    bool is_pattern = get_byte() != 0;
    size_t bytes;
    own->name = name;
    own->element = element;
    own->length = get_length();
    bytes = own->length * element.size;
    own->cells = get_memory(bytes + 2 * ZONE);
    own->wanted = get_memory(bytes + 2 * ZONE);
    memset(own->cells, 0xA5, bytes + 2 * ZONE);
    for (size_t place = 0; is_pattern && place < bytes; place++)
        own->cells[ZONE + place] = pattern(place);
    if (!is_pattern)
        get(own->cells + ZONE, bytes);
    memcpy(own->wanted, own->cells, bytes + 2 * ZONE);
    get_changes(own);
    return own;
}

#define SLICE(name, element) slice *name = get_slice(#name, element)

static void compare_zone(const slice *own, size_t start, const char *beside)
{
    for (size_t place = start; place < start + ZONE; place++)
        compare_element(own->cells + place, own->wanted + place, U8, beside, own->name, ALONE);
}

/* Compares the slices of the call and lets go of them. */
static void check_slices(void)
{
    for (size_t number = 0; number < slices_used; number++) {
        slice *own = &slices[number];
        size_t size = own->element.size, behind = ZONE + own->length * size;
        compare_zone(own, 0, "a byte before ");
        for (size_t place = 0; place < own->length; place++)
            compare_element(own->cells + ZONE + place * size, own->wanted + ZONE + place * size,
                            own->element, "", own->name, place);
        compare_zone(own, behind, "a byte behind ");
        free(own->cells);
        free(own->wanted);
    }
    slices_used = 0;
}

/* A slice as it is passed: the pointer, which is NULL where there is nothing to
 * point at, and the count of elements. */
#define PASS(own) ((own)->length > 0 ? (void *)((own)->cells + ZONE) : NULL), (own)->length

/* The next field of the recorded answer, a number or a list of them, must be the
 * one that was given. */
static void check(const char *name, const void *given, size_t bytes, kind element)
{
    size_t count = bytes / element.size;
    for (size_t place = 0; place < count; place++) {
        const unsigned char *own = (const unsigned char *)given + place * element.size;
        unsigned char wanted[8];
        get(wanted, element.size);
        compare_element(own, wanted, element, "", name, count > 1 ? place : ALONE);
    }
}

/* A field of the answer. */
#define CHECK(field, element) check(#field, &answer.field, sizeof answer.field, element)

static void check_state(cendravoka_state_answer answer)
{
    CHECK(number, U32);
    CHECK(state.schedule.entries, U8);
    CHECK(state.covered, U32);
    CHECK(state.blocks, U8);
}

static void check_model(cendravoka_model_answer answer)
{
    CHECK(number, U32);
    CHECK(edges, U64);
    CHECK(entries, U64);
    CHECK(groups, U64);
    CHECK(blocked, U64);
}

static void check_roster(cendravoka_roster_answer answer)
{
    CHECK(number, U32);
    CHECK(length, U64);
}

static void check_search(cendravoka_search_answer answer)
{
    CHECK(number, U32);
    CHECK(level, U32);
    CHECK(index, U32);
    CHECK(search.asking, U8);
    CHECK(search.greedy, U8);
    CHECK(search.found, U8);
    CHECK(search.optimal, U8);
    CHECK(search.asks, U32);
    CHECK(search.level, U32);
    CHECK(search.start, U32);
    CHECK(search.low, U32);
    CHECK(search.high, U32);
    CHECK(search.schedule.entries, U8);
    CHECK(search.plan, U8);
    CHECK(search.cached.there, U8);
    CHECK(search.cached.greedy, U8);
    CHECK(search.cached.schedule.entries, U8);
    CHECK(search.cached.plan, U8);
    CHECK(most_asks, U32);
}

static void check_verdict(cendravoka_verdict_answer answer)
{
    CHECK(number, U32);
    CHECK(holds, U8);
}

/* An answer that is one number. */
static void check_flag(uint8_t given)
{
    check("the answer", &given, sizeof given, U8);
}

static void negation(void)
{
    cendravoka_constraint own;
    cendravoka_negation_answer answer;
    GET(own);
    answer = cendravoka_negation(own.kind, own.left, own.target_case, own.target, own.extra_case,
                                 own.extra);
    CHECK(number, U32);
    CHECK(kind, U32);
    CHECK(left, U32);
    CHECK(target_case, U32);
    CHECK(target, U32);
    CHECK(extra_case, U32);
    CHECK(extra, I32);
}

static void is_valid(void)
{
    check_flag(cendravoka_is_valid(get_word()));
}

static void is_scheduling_constraint(void)
{
    check_flag(cendravoka_is_scheduling_constraint(get_word()));
}

static void is_assignment_constraint(void)
{
    check_flag(cendravoka_is_assignment_constraint(get_word()));
}

static void is_finite(void)
{
    float major = get_float(), minor = get_float();
    check_flag(cendravoka_is_finite(major, minor));
}

static void compare(void)
{
    float major = get_float(), minor = get_float();
    float right_major = get_float(), right_minor = get_float();
    int32_t order = cendravoka_compare(major, minor, right_major, right_minor);
    check("the answer", &order, sizeof order, I32);
}

static void best(void)
{
    SLICE(scores, F32);
    cendravoka_best_answer answer = cendravoka_best(PASS(scores), get_size());
    CHECK(number, U32);
    CHECK(found, U32);
    CHECK(position, U32);
    CHECK(score.major, F32);
    CHECK(score.minor, F32);
}

static void infinite(void)
{
    cendravoka_score answer = cendravoka_infinite();
    CHECK(major, F32);
    CHECK(minor, F32);
}

static void greedy_major(void)
{
    uint32_t major = cendravoka_greedy_major();
    check("the answer", &major, sizeof major, F32);
}

static void build(void)
{
    SLICE(day, U8);
    SLICE(schedule, U8);
    SLICE(lists, U8);
    check_state(cendravoka_build(PASS(day), PASS(schedule), PASS(lists)));
}

static void update(void)
{
    SLICE(day, U8);
    SLICE(state, U8);
    SLICE(schedule, U8);
    SLICE(lists, U8);
    check_state(cendravoka_update(PASS(day), PASS(state), PASS(schedule), PASS(lists)));
}

static void slot_list(void)
{
    SLICE(day, U8);
    SLICE(state, U8);
    SLICE(lists, U8);
    cendravoka_slot_list_answer answer =
        cendravoka_slot_list(PASS(day), PASS(state), PASS(lists), get_size());
    CHECK(number, U32);
    CHECK(start, U64);
    CHECK(length, U64);
}

/* The three tables and eight buffers that both calls on models are lent. */
typedef struct {
    slice *preferences, *costs, *lists;
    slice *supplies, *from, *to, *max, *cost, *entries, *ends, *blocked;
} model_slices;

static void get_tables(model_slices *own)
{
    own->preferences = get_slice("preferences", U32);
    own->costs = get_slice("costs", I64);
    own->lists = get_slice("lists", U8);
}

static void get_buffers(model_slices *own)
{
    own->supplies = get_slice("supplies", I32);
    own->from = get_slice("from", U16);
    own->to = get_slice("to", U16);
    own->max = get_slice("max", U32);
    own->cost = get_slice("cost", I64);
    own->entries = get_slice("entries", U16);
    own->ends = get_slice("ends", U16);
    own->blocked = get_slice("blocked", U16);
}

static void model(void)
{
    SLICE(day, U8);
    SLICE(state, U8);
    uint32_t limit = get_word();
    model_slices own;
    get_tables(&own);
    get_buffers(&own);
    check_model(cendravoka_model(
        PASS(day), PASS(state), limit, PASS(own.preferences), PASS(own.costs), PASS(own.lists),
        PASS(own.supplies), PASS(own.from), PASS(own.to), PASS(own.max), PASS(own.cost),
        PASS(own.entries), PASS(own.ends), PASS(own.blocked)));
}

static void check_values(void)
{
    SLICE(day, U8);
    SLICE(state, U8);
    uint32_t limit = get_word();
    model_slices own;
    slice *values, *plan;
    get_tables(&own);
    values = get_slice("values", I32);
    get_buffers(&own);
    plan = get_slice("plan", U8);
    check_model(cendravoka_check_values(
        PASS(day), PASS(state), limit, PASS(own.preferences), PASS(own.costs), PASS(own.lists),
        PASS(values), PASS(own.supplies), PASS(own.from), PASS(own.to), PASS(own.max),
        PASS(own.cost), PASS(own.entries), PASS(own.ends), PASS(own.blocked), PASS(plan)));
}

static void choosers_ordered(void)
{
    SLICE(day, U8);
    SLICE(plan, U8);
    size_t choice = get_size();
    SLICE(roster, U8);
    check_roster(cendravoka_choosers_ordered(PASS(day), PASS(plan), choice, PASS(roster)));
}

static void choices_ordered(void)
{
    SLICE(day, U8);
    SLICE(plan, U8);
    size_t chooser = get_size();
    SLICE(roster, U8);
    check_roster(cendravoka_choices_ordered(PASS(day), PASS(plan), chooser, PASS(roster)));
}

static void is_in_choice(void)
{
    SLICE(day, U8);
    SLICE(plan, U8);
    size_t chooser = get_size(), choice = get_size();
    cendravoka_in_choice_answer answer =
        cendravoka_is_in_choice(PASS(day), PASS(plan), chooser, choice);
    CHECK(number, U32);
    CHECK(found, U8);
}

static void choice_of(void)
{
    SLICE(day, U8);
    SLICE(plan, U8);
    size_t chooser = get_size(), slot = get_size();
    cendravoka_choice_answer answer = cendravoka_choice_of(PASS(day), PASS(plan), chooser, slot);
    CHECK(number, U32);
    CHECK(choice, U32);
}

static void begin(void)
{
    SLICE(day, U8);
    SLICE(schedule, U8);
    SLICE(levels, U32);
    uint32_t bound = get_word();
    uint32_t greedy = get_word();
    SLICE(cached, U8);
    check_search(cendravoka_begin(PASS(day), PASS(schedule), PASS(levels), bound, greedy,
                                  PASS(cached)));
}

static void tell(void)
{
    SLICE(day, U8);
    SLICE(search, U8);
    SLICE(levels, U32);
    uint32_t result = get_word();
    SLICE(plan, U8);
    check_search(cendravoka_tell(PASS(day), PASS(search), PASS(levels), result, PASS(plan)));
}

static void satisfies_constraints_scheduling(void)
{
    SLICE(day, U8);
    SLICE(schedule, U8);
    check_verdict(cendravoka_satisfies_constraints_scheduling(PASS(day), PASS(schedule)));
}

static void schedule_is_feasible(void)
{
    SLICE(day, U8);
    SLICE(schedule, U8);
    check_verdict(cendravoka_schedule_is_feasible(PASS(day), PASS(schedule)));
}

static void satisfies_constraints_assignment(void)
{
    SLICE(day, U8);
    SLICE(schedule, U8);
    SLICE(plan, U8);
    check_verdict(
        cendravoka_satisfies_constraints_assignment(PASS(day), PASS(schedule), PASS(plan)));
}

static void is_feasible(void)
{
    SLICE(day, U8);
    SLICE(schedule, U8);
    SLICE(plan, U8);
    check_verdict(cendravoka_is_feasible(PASS(day), PASS(schedule), PASS(plan)));
}

static void evaluate(void)
{
    SLICE(day, U8);
    uint32_t solution = get_word();
    SLICE(schedule, U8);
    SLICE(plan, U8);
    uint32_t greedy = get_word();
    SLICE(preferences, U32);
    SLICE(powers, F32);
    cendravoka_score_answer answer = cendravoka_evaluate(
        PASS(day), solution, PASS(schedule), PASS(plan), greedy, PASS(preferences), PASS(powers));
    CHECK(number, U32);
    CHECK(score.major, F32);
    CHECK(score.minor, F32);
}

/* The entries by their numbers in the file, from 1 on. */
#define ENTRY(name) { #name, name }
static const struct {
    const char *name;
    void (*replay)(void);
} entries[] = {
    ENTRY(negation),
    ENTRY(is_valid),
    ENTRY(is_scheduling_constraint),
    ENTRY(is_assignment_constraint),
    ENTRY(is_finite),
    ENTRY(compare),
    ENTRY(best),
    ENTRY(infinite),
    ENTRY(greedy_major),
    ENTRY(build),
    ENTRY(update),
    ENTRY(slot_list),
    ENTRY(model),
    ENTRY(check_values),
    ENTRY(choosers_ordered),
    ENTRY(choices_ordered),
    ENTRY(is_in_choice),
    ENTRY(choice_of),
    ENTRY(begin),
    ENTRY(tell),
    ENTRY(satisfies_constraints_scheduling),
    ENTRY(schedule_is_feasible),
    ENTRY(satisfies_constraints_assignment),
    ENTRY(is_feasible),
    ENTRY(evaluate),
};
enum { ENTRIES = sizeof entries / sizeof entries[0] };

/* Replays the next record and says whether all was as it is recorded. */
static bool replay(size_t record, size_t failed)
{
    size_t entry = (size_t)get_byte() - 1;
    if (entry >= ENTRIES)
        stop("a record is of no entry");
    is_wrong = false;
    entries[entry].replay();
    check_slices();
    if (is_wrong && failed < SHOWN)
        printf("FAILED record %zu, %s: %s\n", record, entries[entry].name, first_wrong);
    return !is_wrong;
}

static void open_records(const char *path)
{
    static const char magic[] = "CENDRAV3";
    char front[sizeof magic - 1];
    FILE *file = fopen(path, "rb");
    if (file == NULL)
        stop("the file cannot be opened");
    if (fread(front, 1, sizeof front, file) != sizeof front
        || memcmp(front, magic, sizeof front) != 0)
        stop("the file is not one of records");
    unpack(file);
    if (getc(file) != EOF)
        stop("there is more in the file than its records");
    fclose(file);
}

int main(int count, char **words)
{
    size_t records, failed = 0;
    if (count != 2)
        stop("it takes the file of records");
    open_records(words[1]);
    records = get_size();
    for (size_t record = 0; record < records; record++)
        failed += !replay(record, failed);
    if (read_bytes != unpacked_bytes)
        stop("there is more in the file than its records");
    free(unpacked);
    printf("replay: %zu records, %zu failed\n", records, failed);
    return records > 0 && failed == 0 ? EXIT_SUCCESS : EXIT_FAILURE;
}
