/*
 * Compares the library with the second implementation on seeded random
 * buffers and messages, whole and damaged: answers, lengths, offsets, numbers
 * and all bytes must be the same. What reads is written again, and must come
 * back.
 *
 * The argument, if any, is another seed.
 */
#include <stdio.h>
#include <stdlib.h>
#include <string.h>

#include "second.h"

enum {
    BUFFERS = 6000000,
    MESSAGES = 4000000,
    CELLS = 12,             /* n is 0 to 11 */
    GUARD = 16,
    LENT = 320,             /* more than a set of frames takes */
    MANY = 1000             /* how often each answer must be seen */
};

enum direction { READING, WRITING, WRITING_TO_A_SET, DIRECTIONS };

static const char *const direction_name[DIRECTIONS] = {"reading", "writing", "writing to a set"};

/* The answers that each direction can give, one bit each. */
enum {
    ANYWHERE = 1 << LEASE_FRAME_DONE | 1 << LEASE_FRAME_CELL | 1 << LEASE_FRAME_KIND
            | 1 << LEASE_FRAME_HOST | 1 << LEASE_FRAME_TICK | 1 << LEASE_FRAME_PARTY,
    IN_READING = ANYWHERE | 1 << LEASE_FRAME_CUT | 1 << LEASE_FRAME_LENGTH
            | 1 << LEASE_FRAME_SHORT,
    IN_WRITING = ANYWHERE | 1 << LEASE_FRAME_ROOM
};
static const unsigned possible[DIRECTIONS] = {IN_READING, IN_WRITING, IN_WRITING};

enum { ANSWERS = LEASE_FRAME_SHORT + 1 };

static unsigned long seen[DIRECTIONS][ANSWERS];

/* The fields that readings are refused at: 5, 6 and 7 have several. */
static const struct {
    uint8_t answer;
    size_t offset;
} fields[] = {
    {LEASE_FRAME_KIND, 2}, {LEASE_FRAME_LENGTH, 0}, {LEASE_FRAME_SHORT, 0},
    {LEASE_FRAME_HOST, 4}, {LEASE_FRAME_HOST, 5}, {LEASE_FRAME_HOST, 14},
    {LEASE_FRAME_HOST, 15}, {LEASE_FRAME_HOST, 23}, {LEASE_FRAME_HOST, 24},
    {LEASE_FRAME_TICK, 6}, {LEASE_FRAME_TICK, 15}, {LEASE_FRAME_TICK, 16},
    {LEASE_FRAME_TICK, 25}, {LEASE_FRAME_PARTY, 4}, {LEASE_FRAME_PARTY, 5},
};

static unsigned long seen_at[ANSWERS][LEASE_FRAME_LONGEST];

static const struct implementation sides[2] = {
    {"library", lease_frame_read, lease_frame_write, lease_frame_write_to},
    {"second", second_read, second_write, second_write_to},
};

/* What one call is lent and what it gives, with guards around what it may write. */
struct outcome {
    uint8_t answer;
    size_t length;
    size_t offset;          /* a writing leaves it */
    uint64_t numbers[1 + LEASE_FRAME_NUMBERS + 1];
    uint8_t bytes[GUARD + LENT + GUARD];
};

/* What the library and the second implementation gave for the last call. */
static struct outcome outcomes[2];

static uint64_t seed = 20150904;
static uint64_t random_state;

/* splitmix64 */
static uint64_t random_number(void)
{
    uint64_t z = random_state += 0x9E3779B97F4A7C15;
    z = (z ^ z >> 30) * 0xBF58476D1CE4E5B9;
    z = (z ^ z >> 27) * 0x94D049BB133111EB;
    return z ^ z >> 31;
}

static unsigned below(unsigned limit)
{
    return (unsigned)(random_number() >> 32) % limit;
}

static void random_bytes(uint8_t *bytes, size_t count)
{
    for (size_t i = 0; i < count; i += sizeof(uint64_t)) {
        uint64_t number = random_number();
        memcpy(bytes + i, &number, count - i < sizeof number ? count - i : sizeof number);
    }
}

/* A tick or an end within its limit, often at one of its two ends. */
static uint64_t random_tick(uint64_t last)
{
    switch (below(8)) {
    case 0: return 0;
    case 1: return last;
    case 2: return last - below(4);
    default: return random_number() % (last + 1);
    }
}

/* A tick or an end of any size, often next to a limit. */
static uint64_t damaged_tick(void)
{
    uint64_t last = below(2) ? LEASE_FRAME_LAST_TICK : LEASE_FRAME_LAST_END;
    return below(4) ? last + below(3) : random_number() >> below(32);
}

static uint64_t damaged_host(uint8_t n)
{
    return below(2) ? n + below(2) : below(UINT8_MAX + 1);
}

/* A message that a cell of n hosts writes, with anything in the numbers that its kind lacks. */
static void random_message(uint8_t n, uint64_t *numbers)
{
    unsigned hosts = n == 0 ? 1 : n;
    uint64_t kind = 1 + below(KINDS), party = below(hosts);
    for (int place = 0; place < LEASE_FRAME_NUMBERS; place++)
        numbers[place] = second_carries(kind, place) ? below(hosts) : below(UINT8_MAX + 1);
    numbers[LEASE_FRAME_AT_KIND] = kind;
    numbers[LEASE_FRAME_AT_BALLOT_HOST] = party;
    numbers[is_response(kind) ? LEASE_FRAME_AT_TARGET : LEASE_FRAME_AT_SENDER] = party;
    numbers[LEASE_FRAME_AT_BALLOT_TICK] = random_tick(LEASE_FRAME_LAST_TICK);
    numbers[LEASE_FRAME_AT_ACCEPTED_TICK] =
            second_carries(kind, LEASE_FRAME_AT_ACCEPTED_TICK)
            ? random_tick(LEASE_FRAME_LAST_TICK) : damaged_tick();
    numbers[LEASE_FRAME_AT_END] = second_carries(kind, LEASE_FRAME_AT_END)
            ? random_tick(LEASE_FRAME_LAST_END) : damaged_tick();
}

/* Makes one to three numbers wrong, or at least others. */
static void damage_message(uint8_t n, uint64_t *numbers)
{
    for (unsigned times = 1 + below(3); times > 0; times--) {
        int place = (int)below(LEASE_FRAME_NUMBERS);
        switch (place) {
        case LEASE_FRAME_AT_KIND:
            numbers[place] = below(2) ? below(KINDS + 3) : below(UINT16_MAX + 1);
            break;
        case LEASE_FRAME_AT_BALLOT_TICK:
        case LEASE_FRAME_AT_ACCEPTED_TICK:
        case LEASE_FRAME_AT_END:
            numbers[place] = damaged_tick();
            break;
        default:
            numbers[place] = below(2) ? below(n + 1u) : damaged_host(n);
        }
    }
}

static void flip_bits(uint8_t *frame, size_t length)
{
    for (unsigned times = 1 + below(3); times > 0; times--)
        frame[below((unsigned)length)] ^= (uint8_t)(1u << below(8));
}

static void put_random_bytes(uint8_t *frame, size_t length)
{
    for (unsigned times = 1 + below(3); times > 0; times--)
        frame[below((unsigned)length)] = (uint8_t)random_number();
}

/* A length field of another kind, one near the truth, or any. */
static void lie_about_length(uint8_t *frame)
{
    unsigned field = frame[0];
    switch (below(3)) {
    case 0: field = (unsigned)second_length(1 + below(KINDS)); break;
    case 1: field = field + below(5) - 2; break;
    default: field = below(UINT16_MAX + 1);
    }
    frame[0] = (uint8_t)field;
    frame[1] = (uint8_t)(field >> 8);
}

/* Lays a frame or something like one at the start of random bytes; gives how many to lend. */
static size_t random_buffer(uint8_t n, uint8_t *bytes)
{
    uint64_t numbers[LEASE_FRAME_NUMBERS];
    random_bytes(bytes, LENT);
    random_message(n, numbers);
    unsigned form = below(6);
    if (form == 0)
        damage_message(n, numbers);
    size_t length = form == 1 ? 1 + below(LENT) : second_lay(numbers, bytes);
    switch (form) {
    case 2: flip_bits(bytes, length); break;
    case 3: put_random_bytes(bytes, length); break;
    case 4: lie_about_length(bytes); break;
    }
    switch (below(8)) {
    case 0: return below((unsigned)length);
    case 1: return below(6);
    case 2: return below(LENT + 1);
    default: return length;
    }
}

static void print_bytes(const char *what, const void *from, size_t count)
{
    fprintf(stderr, "   %s", what);
    for (size_t i = 0; i < count; i++)
        fprintf(stderr, " %02x", ((const uint8_t *)from)[i]);
    fputc('\n', stderr);
}

static void print_outcome(const struct outcome *outcome, const char *name)
{
    fprintf(stderr, "  %s: answer %u, length %zu, offset %zu\n",
            name, outcome->answer, outcome->length, outcome->offset);
    print_bytes("numbers", outcome->numbers, sizeof outcome->numbers);
    print_bytes("bytes", outcome->bytes, sizeof outcome->bytes);
}

__attribute__((noreturn))
static void fail(enum direction direction, uint8_t n, size_t lent, const char *what)
{
    fprintf(stderr, "compare: %s, n %u, %zu bytes lent, seed %llu: %s\n",
            direction_name[direction], n, lent, (unsigned long long)seed, what);
    for (int side = 0; side < 2; side++)
        print_outcome(&outcomes[side], sides[side].name);
    exit(1);
}

/* The same start for both sides; `bytes` is what is lent, or NULL for what is there already. */
static void start_outcomes(const uint8_t *bytes)
{
    outcomes[0].length = (size_t)random_number();
    outcomes[0].offset = (size_t)random_number();
    for (size_t i = 0; i < sizeof outcomes[0].numbers / sizeof outcomes[0].numbers[0]; i++)
        outcomes[0].numbers[i] = random_number();
    if (bytes != NULL)
        memcpy(outcomes[0].bytes + GUARD, bytes, LENT);
    memcpy(&outcomes[1], &outcomes[0], sizeof outcomes[0]);
}

static void compare_outcomes(enum direction direction, uint8_t n, size_t lent)
{
    const struct outcome *library = &outcomes[0], *second = &outcomes[1];
    if (library->answer != second->answer)
        fail(direction, n, lent, "answers differ");
    if (library->length != second->length)
        fail(direction, n, lent, "lengths differ");
    if (library->offset != second->offset)
        fail(direction, n, lent, "offsets differ");
    if (memcmp(library->numbers, second->numbers, sizeof library->numbers) != 0)
        fail(direction, n, lent, "numbers differ");
    if (memcmp(library->bytes, second->bytes, sizeof library->bytes) != 0)
        fail(direction, n, lent, "bytes differ");
    seen[direction][library->answer]++;
}

static void read_both(uint8_t n, const uint8_t *bytes, size_t count)
{
    start_outcomes(bytes);
    for (int side = 0; side < 2; side++) {
        struct outcome *outcome = &outcomes[side];
        outcome->answer = sides[side].read(n, outcome->bytes + GUARD, count,
                outcome->numbers + 1, &outcome->length, &outcome->offset);
    }
    compare_outcomes(READING, n, count);
    if (outcomes[0].offset < LEASE_FRAME_LONGEST)
        seen_at[outcomes[0].answer][outcomes[0].offset]++;
}

/* Writes to the target, or to a set if `receivers` is not NULL. */
static void write_both(uint8_t n, const uint64_t *numbers, const uint16_t *receivers, size_t room)
{
    start_outcomes(NULL);
    for (int side = 0; side < 2; side++) {
        struct outcome *outcome = &outcomes[side];
        uint8_t *out = outcome->bytes + GUARD;
        outcome->answer = receivers == NULL
                ? write_message(sides[side].write, n, numbers, out, room, &outcome->length)
                : write_message_to(sides[side].write_to, n, numbers, *receivers,
                        out, room, &outcome->length);
    }
    compare_outcomes(receivers == NULL ? WRITING : WRITING_TO_A_SET, n, room);
}

/* Writes what was read, and looks for the bytes it was read from. */
static void write_again(uint8_t n, const uint8_t *bytes)
{
    uint64_t numbers[LEASE_FRAME_NUMBERS];
    size_t length = outcomes[0].length;
    memcpy(numbers, outcomes[0].numbers + 1, sizeof numbers);
    uint16_t target = (uint16_t)(1u << numbers[LEASE_FRAME_AT_TARGET]);
    const uint16_t *const receivers[] = {NULL, &target};
    for (int i = 0; i < 2; i++) {
        random_bytes(outcomes[0].bytes + GUARD, LENT);
        write_both(n, numbers, receivers[i], length + below(3));
        if (outcomes[0].answer != LEASE_FRAME_DONE || outcomes[0].length != length
                || memcmp(outcomes[0].bytes + GUARD, bytes, length) != 0)
            fail(receivers[i] == NULL ? WRITING : WRITING_TO_A_SET, n, length,
                    "what was read is not written as it was");
    }
}

/* Often a set that the message may go to. */
static uint16_t random_receivers(uint8_t n, const uint64_t *numbers)
{
    switch (below(8)) {
    case 0: return (uint16_t)random_number();
    case 1: return (uint16_t)(1u << below(n + 1u));
    case 2: return (uint16_t)(1u << numbers[LEASE_FRAME_AT_BALLOT_HOST] % 16 | 1u << below(16));
    case 3: return 0;
    }
    return is_response(numbers[LEASE_FRAME_AT_KIND])
            ? (uint16_t)(1u << numbers[LEASE_FRAME_AT_BALLOT_HOST] % 16)
            : (uint16_t)(random_number() & ((1u << n) - 1));
}

/* A room next to what the frames need, or any. */
static size_t random_room(const uint64_t *numbers, int frames)
{
    size_t need = second_length(numbers[LEASE_FRAME_AT_KIND]) * (size_t)frames;
    switch (below(6)) {
    case 0: return need == 0 ? 0 : need - 1;
    case 1: return need < LENT ? need + 1 : LENT;
    case 2: return below(LENT + 1);
    default: return need < LENT ? need : LENT;
    }
}

static void compare_reading(void)
{
    static uint8_t bytes[LENT];
    uint8_t n = (uint8_t)below(CELLS);
    size_t count = random_buffer(n, bytes);
    read_both(n, bytes, count);
    if (outcomes[0].answer == LEASE_FRAME_DONE)
        write_again(n, bytes);
}

static void compare_writing(void)
{
    uint64_t numbers[LEASE_FRAME_NUMBERS];
    uint8_t n = (uint8_t)below(CELLS);
    random_message(n, numbers);
    if (below(2))
        damage_message(n, numbers);
    random_bytes(outcomes[0].bytes, sizeof outcomes[0].bytes);
    write_both(n, numbers, NULL, random_room(numbers, 1));
    uint16_t receivers = random_receivers(n, numbers);
    write_both(n, numbers, &receivers, random_room(numbers, __builtin_popcount(receivers)));
}

/* Whether the generator made enough of every answer that the direction can give. */
static bool all_seen(enum direction direction)
{
    bool all = true;
    for (unsigned answer = 0; answer < ANSWERS; answer++) {
        if ((possible[direction] >> answer & 1) && seen[direction][answer] < MANY) {
            fprintf(stderr, "compare: %s was answered %u only %lu times\n",
                    direction_name[direction], answer, seen[direction][answer]);
            all = false;
        }
    }
    return all;
}

/* Whether it made enough of every field that a reading can be refused at. */
static bool all_fields_seen(void)
{
    bool all = true;
    for (size_t i = 0; i < sizeof fields / sizeof fields[0]; i++) {
        unsigned long times = seen_at[fields[i].answer][fields[i].offset];
        if (times < MANY) {
            fprintf(stderr, "compare: reading was answered %u at %zu only %lu times\n",
                    fields[i].answer, fields[i].offset, times);
            all = false;
        }
    }
    return all;
}

static void repeat(int times, void (*compare)(void))
{
    for (int i = 0; i < times; i++)
        compare();
}

int main(int count, char **arguments)
{
    if (count > 1)
        seed = strtoull(arguments[1], NULL, 0);
    random_state = seed;
    repeat(BUFFERS, compare_reading);
    repeat(MESSAGES, compare_writing);
    bool all = all_seen(READING) && all_seen(WRITING) && all_seen(WRITING_TO_A_SET);
    return all && all_fields_seen() ? 0 : 1;
}
