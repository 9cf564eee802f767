/*
 * The hand-written reader and writer. Numbers of several bytes are copied as
 * they are, which is right on a little-endian machine only.
 */
#include "hand.h"

#include <stdbool.h>
#include <string.h>

enum { PLAIN_LENGTH = 15, OWNER_LENGTH = 24, LEASE_LENGTH = 33 };

/* The numbers that a kind lacks are 0, and so within their limits. */
struct message {
    uint16_t kind;
    uint8_t sender;
    uint64_t ballot_tick;
    uint8_t ballot_host;
    uint64_t accepted_tick;
    uint8_t accepted_host;
    uint8_t owner;
    uint64_t end;
};

static inline size_t length_of(uint16_t kind)
{
    static const uint8_t length[] = {0, PLAIN_LENGTH, PLAIN_LENGTH, LEASE_LENGTH,
            OWNER_LENGTH, PLAIN_LENGTH, OWNER_LENGTH, PLAIN_LENGTH};
    return kind < sizeof length ? length[kind] : 0;
}

static inline bool is_response(uint16_t kind)
{
    return kind == LEASE_FRAME_PREPARE_RESPONSE_EMPTY
            || kind == LEASE_FRAME_PREPARE_RESPONSE_LEASE
            || kind == LEASE_FRAME_PROPOSE_RESPONSE;
}

/* The ones in a set of 16 bits; the machine's own count is not in plain x86-64. */
static inline size_t count_of(size_t set)
{
    set -= set >> 1 & 0x5555;
    set = (set & 0x3333) + (set >> 2 & 0x3333);
    set = (set + (set >> 4)) & 0x0F0F;
    return (set + (set >> 8)) & 0x1F;
}

static inline uint16_t load16(const uint8_t *bytes)
{
    uint16_t number;
    memcpy(&number, bytes, sizeof number);
    return number;
}

static inline uint64_t load64(const uint8_t *bytes)
{
    uint64_t number;
    memcpy(&number, bytes, sizeof number);
    return number;
}

static inline void load_frame(const uint8_t *frame, size_t length, struct message *message)
{
    *message = (struct message){.kind = load16(frame + 2), .sender = frame[4],
            .ballot_tick = load64(frame + 6), .ballot_host = frame[14]};
    if (length == LEASE_LENGTH) {
        message->accepted_tick = load64(frame + 15);
        message->accepted_host = frame[23];
        message->owner = frame[24];
        message->end = load64(frame + 25);
    } else if (length == OWNER_LENGTH) {
        message->owner = frame[15];
        message->end = load64(frame + 16);
    }
}

static inline void store_frame(const struct message *message, uint8_t target,
        size_t length, uint8_t *out)
{
    uint16_t length_field = (uint16_t)length;
    memcpy(out, &length_field, sizeof length_field);
    memcpy(out + 2, &message->kind, sizeof message->kind);
    out[4] = message->sender;
    out[5] = target;
    memcpy(out + 6, &message->ballot_tick, sizeof message->ballot_tick);
    out[14] = message->ballot_host;
    if (length == LEASE_LENGTH) {
        memcpy(out + 15, &message->accepted_tick, sizeof message->accepted_tick);
        out[23] = message->accepted_host;
        out[24] = message->owner;
        memcpy(out + 25, &message->end, sizeof message->end);
    } else if (length == OWNER_LENGTH) {
        out[15] = message->owner;
        memcpy(out + 16, &message->end, sizeof message->end);
    }
}

static inline void drop_lacking(size_t length, struct message *message)
{
    if (length != LEASE_LENGTH) {
        message->accepted_tick = 0;
        message->accepted_host = 0;
    }
    if (length == PLAIN_LENGTH) {
        message->owner = 0;
        message->end = 0;
    }
}

/* What is asked of the targets depends on whether there is one or a set. */
static inline uint8_t check(uint8_t n, const struct message *message,
        bool targets_in_cell, bool targets_are_ballot_host)
{
    if (message->sender >= n || message->ballot_host >= n || message->accepted_host >= n
            || message->owner >= n || !targets_in_cell)
        return LEASE_FRAME_HOST;
    if (message->ballot_tick > LEASE_FRAME_LAST_TICK
            || message->accepted_tick > LEASE_FRAME_LAST_TICK
            || message->end > LEASE_FRAME_LAST_END)
        return LEASE_FRAME_TICK;
    if (is_response(message->kind) ? !targets_are_ballot_host
            : message->sender != message->ballot_host)
        return LEASE_FRAME_PARTY;
    return LEASE_FRAME_DONE;
}

/* Where the first host number of n or more stands; there is one. */
static size_t host_fault_at(uint8_t n, const uint8_t *frame, size_t length)
{
    if (frame[4] >= n)
        return 4;
    if (frame[5] >= n)
        return 5;
    if (frame[14] >= n)
        return 14;
    if (length == OWNER_LENGTH)
        return 15;
    return frame[23] >= n ? 23 : 24;
}

/* Where the first tick or end above its limit stands; there is one. */
static size_t tick_fault_at(const uint8_t *frame, size_t length)
{
    if (load64(frame + 6) > LEASE_FRAME_LAST_TICK)
        return 6;
    if (length == OWNER_LENGTH)
        return 16;
    return load64(frame + 15) > LEASE_FRAME_LAST_TICK ? 15 : 25;
}

/* Where a message that is refused by 5, 6 or 7 is at fault. */
static size_t fault_at(uint8_t answer, uint8_t n, const uint8_t *frame, size_t length)
{
    if (answer == LEASE_FRAME_HOST)
        return host_fault_at(n, frame, length);
    if (answer == LEASE_FRAME_TICK)
        return tick_fault_at(frame, length);
    return is_response(load16(frame + 2)) ? 5 : 4;
}

static uint8_t refuse(uint8_t answer, size_t at, size_t *offset)
{
    *offset = at;
    return answer;
}

uint8_t hand_read(uint8_t n, const uint8_t *bytes, size_t bytes_len,
        uint64_t numbers[LEASE_FRAME_NUMBERS], size_t *length, size_t *offset)
{
    *length = 0;
    if (n < 1 || n > LEASE_FRAME_HOSTS)
        return refuse(LEASE_FRAME_CELL, 0, offset);
    if (bytes_len < 4)
        return refuse(LEASE_FRAME_CUT, bytes_len, offset);
    size_t frame = length_of(load16(bytes + 2));
    if (frame == 0)
        return refuse(LEASE_FRAME_KIND, 2, offset);
    if (load16(bytes) != frame)
        return refuse(load16(bytes) < frame ? LEASE_FRAME_SHORT : LEASE_FRAME_LENGTH, 0, offset);
    if (bytes_len < frame)
        return refuse(LEASE_FRAME_CUT, bytes_len, offset);
    struct message message;
    load_frame(bytes, frame, &message);
    uint8_t answer = check(n, &message, bytes[5] < n, bytes[5] == message.ballot_host);
    if (answer != LEASE_FRAME_DONE)
        return refuse(answer, fault_at(answer, n, bytes, frame), offset);
    numbers[LEASE_FRAME_AT_KIND] = message.kind;
    numbers[LEASE_FRAME_AT_SENDER] = message.sender;
    numbers[LEASE_FRAME_AT_TARGET] = bytes[5];
    numbers[LEASE_FRAME_AT_BALLOT_TICK] = message.ballot_tick;
    numbers[LEASE_FRAME_AT_BALLOT_HOST] = message.ballot_host;
    numbers[LEASE_FRAME_AT_ACCEPTED_TICK] = message.accepted_tick;
    numbers[LEASE_FRAME_AT_ACCEPTED_HOST] = message.accepted_host;
    numbers[LEASE_FRAME_AT_OWNER] = message.owner;
    numbers[LEASE_FRAME_AT_END] = message.end;
    *length = frame;
    *offset = 0;
    return LEASE_FRAME_DONE;
}

uint8_t hand_write(uint8_t n, uint16_t kind, uint8_t sender, uint8_t target,
        uint64_t ballot_tick, uint8_t ballot_host,
        uint64_t accepted_tick, uint8_t accepted_host, uint8_t owner, uint64_t end,
        uint8_t *out, size_t out_len, size_t *length)
{
    *length = 0;
    if (n < 1 || n > LEASE_FRAME_HOSTS)
        return LEASE_FRAME_CELL;
    size_t frame = length_of(kind);
    if (frame == 0)
        return LEASE_FRAME_KIND;
    struct message message = {kind, sender, ballot_tick, ballot_host,
            accepted_tick, accepted_host, owner, end};
    drop_lacking(frame, &message);
    uint8_t answer = check(n, &message, target < n, target == ballot_host);
    if (answer != LEASE_FRAME_DONE)
        return answer;
    if (out_len < frame)
        return LEASE_FRAME_ROOM;
    store_frame(&message, target, frame, out);
    *length = frame;
    return LEASE_FRAME_DONE;
}

uint8_t hand_write_to(uint8_t n, uint16_t kind, uint8_t sender,
        uint64_t ballot_tick, uint8_t ballot_host,
        uint64_t accepted_tick, uint8_t accepted_host, uint8_t owner, uint64_t end,
        uint16_t receivers, uint8_t *out, size_t out_len, size_t *length)
{
    *length = 0;
    if (n < 1 || n > LEASE_FRAME_HOSTS)
        return LEASE_FRAME_CELL;
    size_t frame = length_of(kind);
    if (frame == 0)
        return LEASE_FRAME_KIND;
    struct message message = {kind, sender, ballot_tick, ballot_host,
            accepted_tick, accepted_host, owner, end};
    drop_lacking(frame, &message);
    unsigned others = receivers & ~(1u << (ballot_host & 15));
    uint8_t answer = check(n, &message, receivers >> n == 0, others == 0);
    if (answer != LEASE_FRAME_DONE)
        return answer;
    if (out_len < frame * count_of(receivers))
        return LEASE_FRAME_ROOM;
    size_t written = 0;
    for (unsigned left = receivers; left != 0; left &= left - 1) {
        store_frame(&message, (uint8_t)__builtin_ctz(left), frame, out + written);
        written += frame;
    }
    *length = written;
    return LEASE_FRAME_DONE;
}
