/*
 * The second implementation, in the plainest way: a frame is its length and
 * then the numbers that its kind carries, one after another, byte by byte. It
 * is there to be compared with the library, so speed does not count.
 */
#include "second.h"

#include <string.h>

/*
 * The bytes that each number takes in a frame, in the order of the frame: one
 * for a host, eight for a tick or an end.
 */
static const size_t width[LEASE_FRAME_NUMBERS] = {2, 1, 1, 8, 1, 8, 1, 1, 8};

/* A set may name sixteen hosts, most of them too high for any cell. */
enum { SET_BITS = 16 };

/* The receivers of one message, rising. */
struct targets {
    size_t count;
    uint8_t host[SET_BITS];
};

size_t second_length(uint64_t kind)
{
    switch (kind) {
    case LEASE_FRAME_PREPARE_REQUEST: return 15;
    case LEASE_FRAME_PREPARE_RESPONSE_EMPTY: return 15;
    case LEASE_FRAME_PREPARE_RESPONSE_LEASE: return 33;
    case LEASE_FRAME_PROPOSE_REQUEST: return 24;
    case LEASE_FRAME_PROPOSE_RESPONSE: return 15;
    case LEASE_FRAME_LEARN: return 24;
    case LEASE_FRAME_RELEASE_REQUEST: return 15;
    default: return 0;
    }
}

bool second_carries(uint64_t kind, int place)
{
    switch (place) {
    case LEASE_FRAME_AT_ACCEPTED_TICK:
    case LEASE_FRAME_AT_ACCEPTED_HOST:
        return kind == LEASE_FRAME_PREPARE_RESPONSE_LEASE;
    case LEASE_FRAME_AT_OWNER:
    case LEASE_FRAME_AT_END:
        return kind == LEASE_FRAME_PREPARE_RESPONSE_LEASE
                || kind == LEASE_FRAME_PROPOSE_REQUEST
                || kind == LEASE_FRAME_LEARN;
    default:
        return true;
    }
}

static void put(uint8_t *out, uint64_t number, size_t bytes)
{
    for (size_t i = 0; i < bytes; i++)
        out[i] = (uint8_t)(number >> (8 * i));
}

static uint64_t take(const uint8_t *from, size_t bytes)
{
    uint64_t number = 0;
    for (size_t i = 0; i < bytes; i++)
        number |= (uint64_t)from[i] << (8 * i);
    return number;
}

size_t second_lay(const uint64_t *numbers, uint8_t *out)
{
    uint64_t kind = numbers[LEASE_FRAME_AT_KIND];
    size_t at = 2;
    put(out, second_length(kind), 2);
    for (int place = 0; place < LEASE_FRAME_NUMBERS; place++) {
        if (second_carries(kind, place)) {
            put(out + at, numbers[place], width[place]);
            at += width[place];
        }
    }
    return at;
}

static void take_message(const uint8_t *frame, uint64_t kind, uint64_t *numbers)
{
    size_t at = 2;
    for (int place = 0; place < LEASE_FRAME_NUMBERS; place++) {
        numbers[place] = 0;
        if (second_carries(kind, place)) {
            numbers[place] = take(frame + at, width[place]);
            at += width[place];
        }
    }
}

static bool targets_hold(uint8_t n, const struct targets *targets)
{
    for (size_t i = 0; i < targets->count; i++) {
        if (targets->host[i] >= n)
            return false;
    }
    return true;
}

/* The hosts of the message but for its targets. */
static bool hosts_hold(uint8_t n, const uint64_t *numbers)
{
    static const int places[] = {LEASE_FRAME_AT_SENDER, LEASE_FRAME_AT_BALLOT_HOST,
            LEASE_FRAME_AT_ACCEPTED_HOST, LEASE_FRAME_AT_OWNER};
    for (size_t i = 0; i < sizeof places / sizeof places[0]; i++) {
        if (second_carries(numbers[LEASE_FRAME_AT_KIND], places[i]) && numbers[places[i]] >= n)
            return false;
    }
    return true;
}

static bool ticks_hold(const uint64_t *numbers)
{
    uint64_t kind = numbers[LEASE_FRAME_AT_KIND];
    if (numbers[LEASE_FRAME_AT_BALLOT_TICK] > LEASE_FRAME_LAST_TICK)
        return false;
    if (second_carries(kind, LEASE_FRAME_AT_ACCEPTED_TICK)
            && numbers[LEASE_FRAME_AT_ACCEPTED_TICK] > LEASE_FRAME_LAST_TICK)
        return false;
    if (second_carries(kind, LEASE_FRAME_AT_END)
            && numbers[LEASE_FRAME_AT_END] > LEASE_FRAME_LAST_END)
        return false;
    return true;
}

static bool party_holds(const uint64_t *numbers, const struct targets *targets)
{
    uint64_t ballot_host = numbers[LEASE_FRAME_AT_BALLOT_HOST];
    if (!is_response(numbers[LEASE_FRAME_AT_KIND]))
        return numbers[LEASE_FRAME_AT_SENDER] == ballot_host;
    for (size_t i = 0; i < targets->count; i++) {
        if (targets->host[i] != ballot_host)
            return false;
    }
    return true;
}

/* The part of the refusals that reading and writing share: 5, 6, 7. */
static uint8_t check(uint8_t n, const uint64_t *numbers, const struct targets *targets)
{
    if (!hosts_hold(n, numbers) || !targets_hold(n, targets))
        return LEASE_FRAME_HOST;
    if (!ticks_hold(numbers))
        return LEASE_FRAME_TICK;
    if (!party_holds(numbers, targets))
        return LEASE_FRAME_PARTY;
    return LEASE_FRAME_DONE;
}

/* Whether the number at this place is one that 5, 6 or 7 is answered for. */
static bool gives(uint8_t answer, uint8_t n, const uint64_t *numbers, int place)
{
    bool response = is_response(numbers[LEASE_FRAME_AT_KIND]);
    switch (answer) {
    case LEASE_FRAME_HOST:
        return width[place] == 1 && numbers[place] >= n;
    case LEASE_FRAME_TICK:
        return width[place] == 8 && numbers[place] > (place == LEASE_FRAME_AT_END
                ? LEASE_FRAME_LAST_END : LEASE_FRAME_LAST_TICK);
    case LEASE_FRAME_PARTY:
        return place == (response ? LEASE_FRAME_AT_TARGET : LEASE_FRAME_AT_SENDER);
    default:
        return false;
    }
}

/* The offset of the first number in a frame that the answer is given for. */
static size_t refused_at(uint8_t answer, uint8_t n, const uint64_t *numbers)
{
    size_t at = 2;
    for (int place = 0; place < LEASE_FRAME_NUMBERS; place++) {
        if (!second_carries(numbers[LEASE_FRAME_AT_KIND], place))
            continue;
        if (gives(answer, n, numbers, place))
            return at;
        at += width[place];
    }
    return 0;
}

static bool cell_holds(uint8_t n)
{
    return 1 <= n && n <= LEASE_FRAME_HOSTS;
}

static uint8_t refuse(uint8_t answer, size_t at, size_t *offset)
{
    *offset = at;
    return answer;
}

/* The refusals before those of the message: 1, 2 (under 4 bytes), 3, 4 or 17, 2. */
static uint8_t check_bytes(uint8_t n, const uint8_t *bytes, size_t bytes_len, size_t *offset)
{
    if (!cell_holds(n))
        return refuse(LEASE_FRAME_CELL, 0, offset);
    if (bytes_len < 4)
        return refuse(LEASE_FRAME_CUT, bytes_len, offset);
    size_t told = take(bytes, 2), right = second_length(take(bytes + 2, 2));
    if (right == 0)
        return refuse(LEASE_FRAME_KIND, 2, offset);
    if (told < right)
        return refuse(LEASE_FRAME_SHORT, 0, offset);
    if (told > right)
        return refuse(LEASE_FRAME_LENGTH, 0, offset);
    if (bytes_len < right)
        return refuse(LEASE_FRAME_CUT, bytes_len, offset);
    return LEASE_FRAME_DONE;
}

uint8_t second_read(uint8_t n, const uint8_t *bytes, size_t bytes_len,
        uint64_t numbers[LEASE_FRAME_NUMBERS], size_t *length, size_t *offset)
{
    *length = 0;
    uint8_t answer = check_bytes(n, bytes, bytes_len, offset);
    if (answer != LEASE_FRAME_DONE)
        return answer;

    uint64_t message[LEASE_FRAME_NUMBERS];
    take_message(bytes, take(bytes + 2, 2), message);
    struct targets target = {1, {(uint8_t)message[LEASE_FRAME_AT_TARGET]}};
    answer = check(n, message, &target);
    *offset = refused_at(answer, n, message);
    if (answer == LEASE_FRAME_DONE) {
        memcpy(numbers, message, sizeof message);
        *length = second_length(message[LEASE_FRAME_AT_KIND]);
    }
    return answer;
}

/* Writes the message to each target, if it may be written to all of them. */
static uint8_t write_each(uint8_t n, uint64_t *numbers, const struct targets *targets,
        uint8_t *out, size_t out_len, size_t *length)
{
    *length = 0;
    if (!cell_holds(n))
        return LEASE_FRAME_CELL;
    size_t frame_length = second_length(numbers[LEASE_FRAME_AT_KIND]);
    if (frame_length == 0)
        return LEASE_FRAME_KIND;
    uint8_t answer = check(n, numbers, targets);
    if (answer != LEASE_FRAME_DONE)
        return answer;
    if (out_len < targets->count * frame_length)
        return LEASE_FRAME_ROOM;
    for (size_t i = 0; i < targets->count; i++) {
        numbers[LEASE_FRAME_AT_TARGET] = targets->host[i];
        *length += second_lay(numbers, out + *length);
    }
    return LEASE_FRAME_DONE;
}

uint8_t second_write(uint8_t n, uint16_t kind, uint8_t sender, uint8_t target,
        uint64_t ballot_tick, uint8_t ballot_host,
        uint64_t accepted_tick, uint8_t accepted_host, uint8_t owner, uint64_t end,
        uint8_t *out, size_t out_len, size_t *length)
{
    uint64_t numbers[LEASE_FRAME_NUMBERS] = {kind, sender, target, ballot_tick, ballot_host,
            accepted_tick, accepted_host, owner, end};
    struct targets one = {1, {target}};
    return write_each(n, numbers, &one, out, out_len, length);
}

uint8_t second_write_to(uint8_t n, uint16_t kind, uint8_t sender,
        uint64_t ballot_tick, uint8_t ballot_host,
        uint64_t accepted_tick, uint8_t accepted_host, uint8_t owner, uint64_t end,
        uint16_t receivers, uint8_t *out, size_t out_len, size_t *length)
{
    uint64_t numbers[LEASE_FRAME_NUMBERS] = {kind, sender, 0, ballot_tick, ballot_host,
            accepted_tick, accepted_host, owner, end};
    struct targets targets = {0};
    for (uint8_t host = 0; host < SET_BITS; host++) {
        if (receivers >> host & 1)
            targets.host[targets.count++] = host;
    }
    return write_each(n, numbers, &targets, out, out_len, length);
}
