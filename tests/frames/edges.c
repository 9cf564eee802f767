/*
 * The edges of reading and writing frames: every limit from both sides, every
 * cut, every length, kind, set and room, the order of refusals, the offset of
 * each refused reading, and that no byte outside what was lent is touched.
 *
 * All of it is tried twice: with what is lent to a call at the end of a page,
 * and at the start of one. The pages before and after cannot be touched, and on
 * the side where the page goes on, guard bytes must stay as they were.
 *
 * With the argument `small` it tries fewer values of each, once, for a run
 * under valgrind. What is lent is then a heap block of exactly its size, and
 * what the call is to write is unset, so that valgrind sees a touch on either
 * side and a use of bytes that were never set. Whether the bytes that a call
 * leaves alone are as they were is not seen there.
 */
#define _DEFAULT_SOURCE
#include <signal.h>
#include <stdarg.h>
#include <stdio.h>
#include <stdlib.h>
#include <string.h>
#include <sys/mman.h>
#include <unistd.h>

#include "second.h"

enum {
    N = LEASE_FRAME_HOSTS,
    FIELD_VALUES = 65536,   /* of the length, of the kind and of a set */
    SET_HOSTS = 16,
    ROOM = LEASE_FRAME_LONGEST_SET + 1,
    AFTER = 2,              /* bytes that follow a frame */
    PAGE = 4096,
    GUARD = 64,             /* bytes beside those lent, where their page goes on */
    FILL = 0xA5
};

/* The lengths of all frames are below 64, and 64 + 3 * 149 is the set of nine hosts. */
enum { ALWAYS = 64, SMALL_STRIDE = 149 };

static unsigned stride = 1;

/* The next value of a field to try: the low ones all, then each `stride`th. */
static unsigned next(unsigned value)
{
    return value < ALWAYS ? value + 1 : value + stride;
}

static const int host_places[] = {LEASE_FRAME_AT_SENDER, LEASE_FRAME_AT_TARGET,
        LEASE_FRAME_AT_BALLOT_HOST, LEASE_FRAME_AT_ACCEPTED_HOST, LEASE_FRAME_AT_OWNER};
static const int tick_places[] = {LEASE_FRAME_AT_BALLOT_TICK, LEASE_FRAME_AT_ACCEPTED_TICK,
        LEASE_FRAME_AT_END};
enum { HOST_PLACES = 5, TICK_PLACES = 3 };

/* Where frames have their length, and those of each kind their numbers; 0 for what it lacks. */
enum { LENGTH_OFFSET = 0, KIND_OFFSET = 2 };
static const size_t offsets[KINDS][LEASE_FRAME_NUMBERS] = {
    {KIND_OFFSET, 4, 5, 6, 14},
    {KIND_OFFSET, 4, 5, 6, 14},
    {KIND_OFFSET, 4, 5, 6, 14, 15, 23, 24, 25},
    {KIND_OFFSET, 4, 5, 6, 14, 0, 0, 15, 16},
    {KIND_OFFSET, 4, 5, 6, 14},
    {KIND_OFFSET, 4, 5, 6, 14, 0, 0, 15, 16},
    {KIND_OFFSET, 4, 5, 6, 14},
};

/* What a call is to answer, and a reading with which offset. */
struct verdict {
    uint8_t answer;
    size_t offset;
};

static const struct verdict done = {LEASE_FRAME_DONE, 0};

static struct verdict refused(uint8_t answer, size_t offset)
{
    return (struct verdict){answer, offset};
}

/* Refused for the number at a place of a frame. */
static struct verdict refused_at(uint8_t answer, const uint64_t *numbers, int place)
{
    return refused(answer, offsets[numbers[LEASE_FRAME_AT_KIND] - 1][place]);
}

__attribute__((noreturn, format(printf, 1, 2)))
static void fail(const char *format, ...)
{
    va_list arguments;
    va_start(arguments, format);
    fputs("edges: ", stderr);
    vfprintf(stderr, format, arguments);
    fputc('\n', stderr);
    exit(1);
}

/* Says why the run ends when a page beside the lent bytes is touched. */
static void touched(int signal_number)
{
    static const char text[] = "edges: a byte outside those lent was touched\n";
    (void)signal_number;
    _exit(write(STDERR_FILENO, text, sizeof text - 1) < 0 ? 2 : 1);
}

/* Where that lies which is lent to a call. */
enum placement { PAGE_END, PAGE_START, HEAP };

static enum placement placement;

/* What is lent to a call: each part has a page or a heap block to itself. */
enum part { BYTES, NUMBERS, LENGTH, OFFSET, PARTS };

/* The part's page, between two that cannot be read or written. */
static uint8_t *page_of(enum part part)
{
    static uint8_t *pages[PARTS];
    if (pages[part] == NULL) {
        uint8_t *three = mmap(NULL, 3 * PAGE, PROT_NONE, MAP_PRIVATE | MAP_ANONYMOUS, -1, 0);
        if (three == MAP_FAILED || mprotect(three + PAGE, PAGE, PROT_READ | PROT_WRITE) != 0)
            fail("no guarded page");
        pages[part] = three + PAGE;
    }
    return pages[part];
}

/* The guard bytes beside those lent, in the same page. */
static uint8_t *guard_of(uint8_t *lent, size_t size)
{
    return placement == PAGE_END ? lent - GUARD : lent + size;
}

/* Lends so many bytes: filled in a page, unset on the heap. */
static void *lend(enum part part, size_t size)
{
    if (placement == HEAP) {
        void *block = malloc(size);
        if (block == NULL)
            fail("no memory");
        return block;
    }
    uint8_t *lent = page_of(part) + (placement == PAGE_END ? PAGE - size : 0);
    memset(guard_of(lent, size), FILL, GUARD);
    return memset(lent, FILL, size);
}

static void take_back(void *lent, size_t size)
{
    if (placement == HEAP) {
        free(lent);
        return;
    }
    const uint8_t *guard = guard_of(lent, size);
    for (int i = 0; i < GUARD; i++) {
        if (guard[i] != FILL)
            fail("a guard byte was changed");
    }
}

/* How many of those lent can be compared after a call that writes the first `written`. */
static size_t comparable(size_t written, size_t lent)
{
    return placement == HEAP ? written : lent;
}

static void compare_result(const char *what, const uint64_t *numbers, uint8_t answer,
        uint8_t expected_answer, size_t length, size_t expected_length)
{
    if (answer != expected_answer || length != expected_length)
        fail("%s, kind %llu: answer %u, length %zu; expected %u, %zu", what,
                (unsigned long long)numbers[LEASE_FRAME_AT_KIND],
                answer, length, expected_answer, expected_length);
}

/* The offset of a reading: within the bytes, but for 1 and 2. */
static void compare_offset(const char *what, const uint64_t *numbers, uint8_t answer,
        size_t count, size_t offset, size_t expected_offset)
{
    bool in_bytes = answer != LEASE_FRAME_DONE && answer != LEASE_FRAME_CELL
            && answer != LEASE_FRAME_CUT;
    if (offset != expected_offset)
        fail("%s, kind %llu: answer %u, offset %zu; expected %zu", what,
                (unsigned long long)numbers[LEASE_FRAME_AT_KIND],
                answer, offset, expected_offset);
    if (in_bytes && offset >= count)
        fail("%s: answer %u, offset %zu of %zu bytes", what, answer, offset, count);
}

static void compare_numbers(const char *what, const uint64_t *numbers, const uint64_t *given,
        bool whole)
{
    uint64_t expected[LEASE_FRAME_NUMBERS];
    memset(expected, FILL, sizeof expected);
    if (whole)
        memcpy(expected, numbers, sizeof expected);
    size_t places = comparable(whole ? LEASE_FRAME_NUMBERS : 0, LEASE_FRAME_NUMBERS);
    for (size_t place = 0; place < places; place++) {
        if (given[place] != expected[place])
            fail("%s, kind %llu: number %zu is %llu, expected %llu", what,
                    (unsigned long long)numbers[LEASE_FRAME_AT_KIND], place,
                    (unsigned long long)given[place], (unsigned long long)expected[place]);
    }
}

/* Reads lent bytes; `numbers` is the message if any is given. */
static void expect_read(const char *what, uint8_t n, const uint8_t *bytes, size_t count,
        const uint64_t *numbers, struct verdict expected)
{
    bool whole = expected.answer == LEASE_FRAME_DONE;
    size_t size = LEASE_FRAME_NUMBERS * sizeof *numbers;
    uint8_t *lent = lend(BYTES, count);
    uint64_t *given = lend(NUMBERS, size);
    size_t *length = lend(LENGTH, sizeof *length);
    size_t *offset = lend(OFFSET, sizeof *offset);
    memcpy(lent, bytes, count);

    uint8_t answer = lease_frame_read(n, lent, count, given, length, offset);
    compare_result(what, numbers, answer, expected.answer,
            *length, whole ? second_length(numbers[LEASE_FRAME_AT_KIND]) : 0);
    compare_offset(what, numbers, answer, count, *offset, expected.offset);
    compare_numbers(what, numbers, given, whole);
    if (memcmp(lent, bytes, count) != 0)
        fail("%s: reading changed the bytes", what);
    take_back(lent, count);
    take_back(given, size);
    take_back(length, sizeof *length);
    take_back(offset, sizeof *offset);
}

static size_t lay_each(const uint64_t *numbers, uint16_t receivers, uint8_t *out)
{
    uint64_t message[LEASE_FRAME_NUMBERS];
    size_t length = 0;
    memcpy(message, numbers, sizeof message);
    for (int host = 0; host < SET_HOSTS; host++) {
        if (receivers >> host & 1) {
            message[LEASE_FRAME_AT_TARGET] = host;
            length += second_lay(message, out + length);
        }
    }
    return length;
}

/* Writes to lent room: to the target, or to a set if `receivers` is not NULL. */
static void expect_write(const char *what, uint8_t n, const uint64_t *numbers,
        const uint16_t *receivers, size_t room, uint8_t expected_answer)
{
    uint8_t expected[ROOM];
    size_t expected_length = 0;
    uint8_t *given = lend(BYTES, room);
    size_t *length = lend(LENGTH, sizeof *length);
    memset(expected, FILL, sizeof expected);
    if (expected_answer == LEASE_FRAME_DONE)
        expected_length = receivers == NULL ? second_lay(numbers, expected)
                : lay_each(numbers, *receivers, expected);

    uint8_t answer = receivers == NULL
            ? write_message(lease_frame_write, n, numbers, given, room, length)
            : write_message_to(lease_frame_write_to, n, numbers, *receivers,
                    given, room, length);
    compare_result(what, numbers, answer, expected_answer, *length, expected_length);
    for (size_t i = 0; i < comparable(expected_length, room); i++) {
        if (given[i] != expected[i])
            fail("%s, kind %llu, room %zu: byte %zu is %u, expected %u", what,
                    (unsigned long long)numbers[LEASE_FRAME_AT_KIND], room,
                    i, given[i], expected[i]);
    }
    take_back(given, room);
    take_back(length, sizeof *length);
}

/* Writes to the target, and to the set of the target alone. */
static void expect_writes(const char *what, uint8_t n, const uint64_t *numbers,
        size_t room, uint8_t answer)
{
    expect_write(what, n, numbers, NULL, room, answer);
    if (numbers[LEASE_FRAME_AT_TARGET] < SET_HOSTS) {
        uint16_t receivers = (uint16_t)(1u << numbers[LEASE_FRAME_AT_TARGET]);
        expect_write(what, n, numbers, &receivers, room, answer);
    }
}

/* Reading, writing and writing to a set answer alike, given all bytes, or more, and room. */
static void expect_all(const char *what, uint8_t n, const uint64_t *numbers,
        struct verdict expected)
{
    uint8_t bytes[LEASE_FRAME_LONGEST + AFTER];
    memset(bytes, FILL, sizeof bytes);
    size_t length = second_lay(numbers, bytes);
    expect_read(what, n, bytes, length, numbers, expected);
    expect_read(what, n, bytes, length + AFTER, numbers, expected);
    expect_writes(what, n, numbers, length, expected.answer);
}

/* The sample's message in a cell of n hosts. */
static void sample_for(const struct sample *sample, uint8_t n, uint64_t *numbers)
{
    memcpy(numbers, sample->numbers, sizeof sample->numbers);
    for (int i = 0; i < HOST_PLACES; i++)
        numbers[host_places[i]] %= n;
}

/* The place that must hold the ballot's host. */
static int party_place(const struct sample *sample)
{
    return is_response(sample->numbers[LEASE_FRAME_AT_KIND])
            ? LEASE_FRAME_AT_TARGET : LEASE_FRAME_AT_SENDER;
}

static void layouts(const struct sample *sample)
{
    uint8_t frame[LEASE_FRAME_LONGEST];
    size_t length = second_lay(sample->numbers, frame);
    if (length != sample->length || memcmp(frame, sample->bytes, length) != 0)
        fail("the sample of kind %llu is laid out otherwise",
                (unsigned long long)sample->numbers[LEASE_FRAME_AT_KIND]);
    expect_all("sample", N, sample->numbers, done);
}

/* What the first bytes of a frame give with a length field: 17 below the right one, 4 above. */
static struct verdict verdict_on_length(const struct sample *sample, size_t field, size_t count)
{
    if (count < 4)
        return refused(LEASE_FRAME_CUT, count);
    if (field < sample->length)
        return refused(LEASE_FRAME_SHORT, LENGTH_OFFSET);
    if (field > sample->length)
        return refused(LEASE_FRAME_LENGTH, LENGTH_OFFSET);
    return count < sample->length ? refused(LEASE_FRAME_CUT, count) : done;
}

/* Every length field on the first bytes of a frame. */
static void length_fields(const struct sample *sample, const uint8_t *frame, size_t count)
{
    uint8_t bytes[LEASE_FRAME_LONGEST + AFTER];
    memcpy(bytes, frame, sizeof bytes);
    for (unsigned field = 0; field < FIELD_VALUES; field = next(field)) {
        bytes[0] = (uint8_t)field;
        bytes[1] = (uint8_t)(field >> 8);
        expect_read("length field", N, bytes, count, sample->numbers,
                verdict_on_length(sample, field, count));
    }
}

/* Every cut of the frame, the whole, and the frame with bytes after it. */
static void cuts(const struct sample *sample)
{
    uint8_t bytes[LEASE_FRAME_LONGEST + AFTER];
    memset(bytes, FILL, sizeof bytes);
    memcpy(bytes, sample->bytes, sample->length);
    for (size_t count = 0; count <= sample->length + AFTER; count++)
        length_fields(sample, bytes, count);
}

/* Every kind that is none of the seven, at the length of a frame and of its head. */
static void kinds(const struct sample *sample)
{
    uint64_t numbers[LEASE_FRAME_NUMBERS];
    uint8_t frame[LEASE_FRAME_LONGEST];
    memcpy(numbers, sample->numbers, sizeof numbers);
    memcpy(frame, sample->bytes, sizeof frame);
    for (unsigned kind = 0; kind < FIELD_VALUES; kind = next(kind)) {
        if (1 <= kind && kind <= KINDS)
            continue;
        numbers[LEASE_FRAME_AT_KIND] = kind;
        frame[2] = (uint8_t)kind;
        frame[3] = (uint8_t)(kind >> 8);
        struct verdict expected = refused(LEASE_FRAME_KIND, KIND_OFFSET);
        expect_read("kind", N, frame, sample->length, numbers, expected);
        expect_read("kind", N, frame, 4, numbers, expected);
        expect_writes("kind", N, numbers, ROOM, LEASE_FRAME_KIND);
    }
}

/* NULL for no bytes and for no room. */
static void no_bytes(const struct sample *sample)
{
    const uint64_t *numbers = sample->numbers;
    uint64_t *given = lend(NUMBERS, sizeof sample->numbers);
    size_t *length = lend(LENGTH, sizeof *length);
    size_t *offset = lend(OFFSET, sizeof *offset);
    uint16_t target = (uint16_t)(1u << numbers[LEASE_FRAME_AT_TARGET]);
    uint8_t answer = lease_frame_read(N, NULL, 0, given, length, offset);
    compare_result("reading NULL", numbers, answer, LEASE_FRAME_CUT, *length, 0);
    compare_offset("reading NULL", numbers, answer, 0, *offset, 0);
    *length = *offset = SIZE_MAX;
    answer = lease_frame_read(0, NULL, 0, given, length, offset);
    compare_result("reading NULL in no cell", numbers, answer, LEASE_FRAME_CELL, *length, 0);
    compare_offset("reading NULL in no cell", numbers, answer, 0, *offset, 0);
    *length = SIZE_MAX;
    answer = write_message(lease_frame_write, N, numbers, NULL, 0, length);
    compare_result("writing to NULL", numbers, answer, LEASE_FRAME_ROOM, *length, 0);
    *length = SIZE_MAX;
    answer = write_message_to(lease_frame_write_to, N, numbers, target, NULL, 0, length);
    compare_result("writing a set to NULL", numbers, answer, LEASE_FRAME_ROOM, *length, 0);
    *length = SIZE_MAX;
    answer = write_message_to(lease_frame_write_to, N, numbers, 0, NULL, 0, length);
    compare_result("writing no frame to NULL", numbers, answer, LEASE_FRAME_DONE, *length, 0);
    take_back(given, sizeof sample->numbers);
    take_back(length, sizeof *length);
    take_back(offset, sizeof *offset);
}

/* Whatever the length and the offset were before, what reads has offset 0. */
static void held_before(const struct sample *sample)
{
    static const size_t held[] = {0, 1, LEASE_FRAME_LONGEST, SIZE_MAX};
    for (size_t i = 0; i < sizeof held / sizeof held[0]; i++) {
        uint64_t given[LEASE_FRAME_NUMBERS];
        size_t length = held[i], offset = held[i];
        uint8_t answer = lease_frame_read(N, sample->bytes, sample->length, given,
                &length, &offset);
        compare_result("held before", sample->numbers, answer, LEASE_FRAME_DONE,
                length, sample->length);
        compare_offset("held before", sample->numbers, answer, sample->length, offset, 0);
    }
}

/* P11 and P12 of the moments worth fixing, and P11 with a length that is too short. */
static void moments(void)
{
    static const uint8_t p11[] = {0x0F, 0, 1, 0, 0, 2, 0x69, 0, 0, 0, 0, 0, 0, 0, 0};
    static const uint8_t p12[] = {0x10, 0, 1, 0, 0, 2, 0x69, 0, 0, 0, 0, 0, 0, 0, 0, 0};
    static const uint8_t zero[] = {0, 0, 1, 0, 0, 2, 0x69, 0, 0, 0, 0, 0, 0, 0, 0};
    static const uint64_t prepare[LEASE_FRAME_NUMBERS] = {1, 0, 2, 105, 0};
    expect_read("P11", 3, p11, sizeof p11, prepare, done);
    expect_all("P11", 3, prepare, done);
    expect_read("P12", 3, p12, sizeof p12, prepare, refused(LEASE_FRAME_LENGTH, 0));
    expect_read("length 0", 3, zero, sizeof zero, prepare, refused(LEASE_FRAME_SHORT, 0));
}

static void ticks(const struct sample *sample, int place)
{
    uint64_t last = place == LEASE_FRAME_AT_END ? LEASE_FRAME_LAST_END : LEASE_FRAME_LAST_TICK;
    uint64_t numbers[LEASE_FRAME_NUMBERS];
    memcpy(numbers, sample->numbers, sizeof numbers);
    struct verdict past = refused_at(LEASE_FRAME_TICK, numbers, place);
    numbers[place] = 0;
    expect_all("zero tick or end", N, numbers, done);
    numbers[place] = last;
    expect_all("last tick or end", N, numbers, done);
    numbers[place] = last + 1;
    expect_all("tick or end past its limit", N, numbers, past);
    numbers[place] = UINT64_MAX;
    expect_all("greatest tick or end", N, numbers, past);
    numbers[place] = UINT64_C(1) << 63;
    expect_all("top bit of a tick or end", N, numbers, past);
}

/* Every host number at one place, the ballot's host kept together with its party. */
static void hosts(const struct sample *sample, int place, uint8_t n)
{
    bool in_party = place == LEASE_FRAME_AT_BALLOT_HOST || place == party_place(sample);
    uint64_t numbers[LEASE_FRAME_NUMBERS];
    sample_for(sample, n, numbers);
    struct verdict past = refused_at(LEASE_FRAME_HOST, numbers, place);
    for (unsigned host = 0; host <= UINT8_MAX; host++) {
        numbers[place] = host;
        if (in_party && host < n)
            numbers[LEASE_FRAME_AT_BALLOT_HOST] = numbers[party_place(sample)] = host;
        expect_all("host", n, numbers, host < n ? done : past);
    }
}

static void cells(const struct sample *sample)
{
    uint64_t numbers[LEASE_FRAME_NUMBERS];
    for (unsigned n = 0; n <= UINT8_MAX; n++) {
        bool in_range = 1 <= n && n <= LEASE_FRAME_HOSTS;
        sample_for(sample, in_range ? (uint8_t)n : 1, numbers);
        expect_all("cell", (uint8_t)n, numbers, in_range ? done : refused(LEASE_FRAME_CELL, 0));
    }
}

static void parties(const struct sample *sample)
{
    uint64_t numbers[LEASE_FRAME_NUMBERS];
    memcpy(numbers, sample->numbers, sizeof numbers);
    struct verdict other = refused_at(LEASE_FRAME_PARTY, numbers, party_place(sample));
    for (int i = 0; i < N * N; i++) {
        numbers[LEASE_FRAME_AT_SENDER] = i / N;
        numbers[LEASE_FRAME_AT_TARGET] = i % N;
        bool holds = numbers[party_place(sample)] == numbers[LEASE_FRAME_AT_BALLOT_HOST];
        expect_all("party", N, numbers, holds ? done : other);
    }
}

/* Numbers that the kind lacks are past every limit, and are not looked at. */
static void lacking_numbers(const struct sample *sample)
{
    static const uint64_t past[LEASE_FRAME_NUMBERS] = {[LEASE_FRAME_AT_ACCEPTED_TICK] = UINT64_MAX,
            UINT8_MAX, UINT8_MAX, UINT64_MAX};
    uint64_t numbers[LEASE_FRAME_NUMBERS];
    memcpy(numbers, sample->numbers, sizeof numbers);
    for (int place = 0; place < LEASE_FRAME_NUMBERS; place++) {
        if (!second_carries(numbers[LEASE_FRAME_AT_KIND], place))
            numbers[place] = past[place];
    }
    expect_writes("numbers that the kind lacks", N, numbers, sample->length, LEASE_FRAME_DONE);
}

/* Whether a place is in a set, by bits, and in frames of the kind. */
static bool has(unsigned set, int place, uint64_t kind)
{
    return (set >> place & 1) && second_carries(kind, place);
}

/* The first of these places that the set has, or 0. */
static int first_of(const int *places, int count, unsigned set, uint64_t kind)
{
    for (int i = 0; i < count; i++) {
        if (has(set, places[i], kind))
            return places[i];
    }
    return 0;
}

/* What numbers give of which a set is wrong: 5 before 6 before 7, each at its first field. */
static struct verdict verdict_on_numbers(const struct sample *sample, unsigned wrong,
        bool party_holds)
{
    const uint64_t *numbers = sample->numbers;
    int host = first_of(host_places, HOST_PLACES, wrong, numbers[LEASE_FRAME_AT_KIND]);
    int tick = first_of(tick_places, TICK_PLACES, wrong, numbers[LEASE_FRAME_AT_KIND]);
    if (host != 0)
        return refused_at(LEASE_FRAME_HOST, numbers, host);
    if (tick != 0)
        return refused_at(LEASE_FRAME_TICK, numbers, tick);
    return party_holds ? done : refused_at(LEASE_FRAME_PARTY, numbers, party_place(sample));
}

/* Puts a value in those of the places that the set has. */
static void put(uint64_t *numbers, const int *places, int count, unsigned set, uint64_t value)
{
    for (int i = 0; i < count; i++) {
        if (has(set, places[i], numbers[LEASE_FRAME_AT_KIND]))
            numbers[places[i]] = value;
    }
}

/* Every set of wrong numbers beside the kind, with the party that there should be or another. */
static void wrong_numbers(const struct sample *sample, bool party_holds)
{
    for (unsigned wrong = 0; wrong < 1u << LEASE_FRAME_NUMBERS; wrong += 2) {
        uint64_t numbers[LEASE_FRAME_NUMBERS];
        memcpy(numbers, sample->numbers, sizeof numbers);
        if (!party_holds)
            numbers[LEASE_FRAME_AT_BALLOT_HOST] = (numbers[LEASE_FRAME_AT_BALLOT_HOST] + 1) % N;
        put(numbers, host_places, HOST_PLACES, wrong, N);
        put(numbers, tick_places, TICK_PLACES, wrong, LEASE_FRAME_LAST_END + 1);
        expect_all("wrong numbers", N, numbers, verdict_on_numbers(sample, wrong, party_holds));
    }
}

/* Faults of a message, as bits. */
enum { HOST_FAULT = 1, TICK_FAULT = 2, PARTY_FAULT = 4 };

static void damage(uint64_t *numbers, int host_place, int tick_place, unsigned faults)
{
    if (faults & PARTY_FAULT)
        numbers[LEASE_FRAME_AT_BALLOT_HOST] = (numbers[LEASE_FRAME_AT_BALLOT_HOST] + 1) % N;
    if (faults & TICK_FAULT)
        numbers[tick_place] = LEASE_FRAME_LAST_END + 1;
    if (faults & HOST_FAULT)
        numbers[host_place] = N;
}

/* The answer to several faults, one a bit: that of the lowest bit. */
static uint8_t first_answer(const uint8_t *answers, unsigned faults)
{
    return faults == 0 ? LEASE_FRAME_DONE : answers[__builtin_ctz(faults)];
}

/* Faults of a reading, as bits in the order of refusals; those of its message come last. */
enum {
    READ_CELL = 1, READ_HEAD = 2, READ_KIND = 4, READ_LENGTH = 8, READ_TAIL = 16,
    READ_MESSAGE_SHIFT = 5, READ_FAULTS = 256
};

/* With a length field that is one too long, or with one that is one too short. */
static void reading_order(const struct sample *sample, int host_place, int tick_place,
        bool too_long)
{
    const uint64_t *right = sample->numbers;
    for (unsigned faults = 1; faults < READ_FAULTS; faults++) {
        uint64_t numbers[LEASE_FRAME_NUMBERS];
        uint8_t frame[LEASE_FRAME_LONGEST];
        memcpy(numbers, sample->numbers, sizeof numbers);
        damage(numbers, host_place, tick_place, faults >> READ_MESSAGE_SHIFT);
        size_t count = second_lay(numbers, frame);
        if (faults & READ_LENGTH)
            frame[0] = (uint8_t)(too_long ? frame[0] + 1 : frame[0] - 1);
        if (faults & READ_KIND)
            frame[2] = KINDS + 1;
        if (faults & READ_TAIL)
            count--;
        if (faults & READ_HEAD)
            count = 3;
        const struct verdict verdicts[] = {
            refused(LEASE_FRAME_CELL, 0),
            refused(LEASE_FRAME_CUT, count),
            refused(LEASE_FRAME_KIND, KIND_OFFSET),
            refused(too_long ? LEASE_FRAME_LENGTH : LEASE_FRAME_SHORT, LENGTH_OFFSET),
            refused(LEASE_FRAME_CUT, count),
            refused_at(LEASE_FRAME_HOST, right, host_place),
            refused_at(LEASE_FRAME_TICK, right, tick_place),
            refused_at(LEASE_FRAME_PARTY, right, party_place(sample)),
        };
        expect_read("order of refusals", faults & READ_CELL ? 0 : N, frame, count, numbers,
                verdicts[__builtin_ctz(faults)]);
    }
}

/* Faults of a writing, likewise; those of its message stand before the room. */
enum {
    WRITE_CELL = 1, WRITE_KIND = 2, WRITE_MESSAGE_SHIFT = 2, WRITE_ROOM = 32,
    WRITE_FAULTS = 64
};

/* The faults that are still there when the message goes to nobody. */
static unsigned faults_to_nobody(const struct sample *sample, int host_place, unsigned faults)
{
    faults &= ~(unsigned)WRITE_ROOM;
    if (host_place == LEASE_FRAME_AT_TARGET)
        faults &= ~((unsigned)HOST_FAULT << WRITE_MESSAGE_SHIFT);
    if (party_place(sample) == LEASE_FRAME_AT_TARGET)
        faults &= ~((unsigned)PARTY_FAULT << WRITE_MESSAGE_SHIFT);
    return faults;
}

static void writing_order(const struct sample *sample, int host_place, int tick_place)
{
    static const uint8_t answers[] = {LEASE_FRAME_CELL, LEASE_FRAME_KIND,
            LEASE_FRAME_HOST, LEASE_FRAME_TICK, LEASE_FRAME_PARTY, LEASE_FRAME_ROOM};
    static const uint16_t nobody = 0;
    for (unsigned faults = 1; faults < WRITE_FAULTS; faults++) {
        uint8_t n = faults & WRITE_CELL ? N + 1 : N;
        size_t room = faults & WRITE_ROOM ? sample->length - 1 : sample->length;
        uint64_t numbers[LEASE_FRAME_NUMBERS];
        memcpy(numbers, sample->numbers, sizeof numbers);
        damage(numbers, host_place, tick_place, faults >> WRITE_MESSAGE_SHIFT);
        if (faults & WRITE_KIND)
            numbers[LEASE_FRAME_AT_KIND] = KINDS + 1;
        expect_writes("order of refusals", n, numbers, room, first_answer(answers, faults));
        expect_write("order of refusals to nobody", n, numbers, &nobody, room,
                first_answer(answers, faults_to_nobody(sample, host_place, faults)));
    }
}

/* The limits and the order at one place of a host and one of a tick, if the kind has both. */
static void places(const struct sample *sample, int host_place, int tick_place)
{
    uint64_t kind = sample->numbers[LEASE_FRAME_AT_KIND];
    if (!second_carries(kind, host_place) || !second_carries(kind, tick_place))
        return;
    ticks(sample, tick_place);
    for (uint8_t n = 1; n <= LEASE_FRAME_HOSTS; n++)
        hosts(sample, host_place, n);
    reading_order(sample, host_place, tick_place, true);
    reading_order(sample, host_place, tick_place, false);
    writing_order(sample, host_place, tick_place);
}

static uint8_t set_answer(uint8_t n, const uint64_t *numbers, unsigned receivers, size_t room)
{
    unsigned ballot_host = 1u << numbers[LEASE_FRAME_AT_BALLOT_HOST];
    size_t count = (size_t)__builtin_popcount(receivers);
    if (receivers >> n != 0)
        return LEASE_FRAME_HOST;
    if (is_response(numbers[LEASE_FRAME_AT_KIND]) && (receivers & ~ballot_host) != 0)
        return LEASE_FRAME_PARTY;
    if (room < count * second_length(numbers[LEASE_FRAME_AT_KIND]))
        return LEASE_FRAME_ROOM;
    return LEASE_FRAME_DONE;
}

/* Every room for the target alone. */
static void rooms(const struct sample *sample)
{
    for (size_t room = 0; room <= ROOM; room++)
        expect_write("room", N, sample->numbers, NULL, room,
                room < sample->length ? LEASE_FRAME_ROOM : LEASE_FRAME_DONE);
}

/* A set within the cell is tried in every room, another in the longest. */
static void set_in_rooms(const uint64_t *numbers, uint8_t n, uint16_t receivers)
{
    for (size_t room = receivers >> n == 0 ? 0 : ROOM; room <= ROOM; room++)
        expect_write("set", n, numbers, &receivers, room,
                set_answer(n, numbers, receivers, room));
}

/* Every set that 16 bits can name. */
static void sets(const struct sample *sample, uint8_t n)
{
    uint64_t numbers[LEASE_FRAME_NUMBERS];
    sample_for(sample, n, numbers);
    for (unsigned set = 0; set < FIELD_VALUES; set = next(set))
        set_in_rooms(numbers, n, (uint16_t)set);
}

static void edges(const struct sample *sample)
{
    layouts(sample);
    cuts(sample);
    kinds(sample);
    no_bytes(sample);
    held_before(sample);
    cells(sample);
    parties(sample);
    wrong_numbers(sample, true);
    wrong_numbers(sample, false);
    lacking_numbers(sample);
    rooms(sample);
    sets(sample, 1);
    sets(sample, 3);
    sets(sample, 9);
    for (int i = 0; i < HOST_PLACES * TICK_PLACES; i++)
        places(sample, host_places[i % HOST_PLACES], tick_places[i / HOST_PLACES]);
}

/* All the edges, with what is lent placed there. */
static void all_edges(enum placement lent_at)
{
    placement = lent_at;
    moments();
    for (int i = 0; i < KINDS; i++)
        edges(&samples[i]);
}

int main(int count, char **arguments)
{
    bool small = count == 2 && strcmp(arguments[1], "small") == 0;
    if (count != 1 && !small)
        fail("the only argument is `small`");
    signal(SIGSEGV, touched);
    if (small) {
        stride = SMALL_STRIDE;
        all_edges(HEAP);
    } else {
        all_edges(PAGE_END);
        all_edges(PAGE_START);
    }
    return 0;
}
