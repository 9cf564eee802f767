/*
 * Messages as arrays of nine numbers: an example of each kind with its bytes,
 * and calls that take such an array. The implementations of reading and
 * writing share one interface, so that what tries one can try another.
 */
#ifndef MESSAGES_H
#define MESSAGES_H

#include <stdbool.h>

#include "lease_frame.h"

typedef uint8_t read_call(uint8_t n, const uint8_t *bytes, size_t bytes_len,
        uint64_t numbers[LEASE_FRAME_NUMBERS], size_t *length, size_t *offset);
typedef uint8_t write_call(uint8_t n, uint16_t kind, uint8_t sender, uint8_t target,
        uint64_t ballot_tick, uint8_t ballot_host,
        uint64_t accepted_tick, uint8_t accepted_host, uint8_t owner, uint64_t end,
        uint8_t *out, size_t out_len, size_t *length);
typedef uint8_t write_to_call(uint8_t n, uint16_t kind, uint8_t sender,
        uint64_t ballot_tick, uint8_t ballot_host,
        uint64_t accepted_tick, uint8_t accepted_host, uint8_t owner, uint64_t end,
        uint16_t receivers, uint8_t *out, size_t out_len, size_t *length);

struct implementation {
    const char *name;
    read_call *read;
    write_call *write;
    write_to_call *write_to;
};

/* The numbers in an array must fit their arguments: a kind 16 bits, a host 8. */
static inline uint8_t write_message(write_call *write, uint8_t n, const uint64_t *numbers,
        uint8_t *out, size_t out_len, size_t *length)
{
    return write(n, numbers[LEASE_FRAME_AT_KIND],
            numbers[LEASE_FRAME_AT_SENDER], numbers[LEASE_FRAME_AT_TARGET],
            numbers[LEASE_FRAME_AT_BALLOT_TICK], numbers[LEASE_FRAME_AT_BALLOT_HOST],
            numbers[LEASE_FRAME_AT_ACCEPTED_TICK], numbers[LEASE_FRAME_AT_ACCEPTED_HOST],
            numbers[LEASE_FRAME_AT_OWNER], numbers[LEASE_FRAME_AT_END],
            out, out_len, length);
}

static inline uint8_t write_message_to(write_to_call *write_to, uint8_t n,
        const uint64_t *numbers, uint16_t receivers,
        uint8_t *out, size_t out_len, size_t *length)
{
    return write_to(n, numbers[LEASE_FRAME_AT_KIND], numbers[LEASE_FRAME_AT_SENDER],
            numbers[LEASE_FRAME_AT_BALLOT_TICK], numbers[LEASE_FRAME_AT_BALLOT_HOST],
            numbers[LEASE_FRAME_AT_ACCEPTED_TICK], numbers[LEASE_FRAME_AT_ACCEPTED_HOST],
            numbers[LEASE_FRAME_AT_OWNER], numbers[LEASE_FRAME_AT_END],
            receivers, out, out_len, length);
}

/* Kinds 2, 3 and 5, whose target is the ballot's host. */
static inline bool is_response(uint64_t kind)
{
    return kind == LEASE_FRAME_PREPARE_RESPONSE_EMPTY
            || kind == LEASE_FRAME_PREPARE_RESPONSE_LEASE
            || kind == LEASE_FRAME_PROPOSE_RESPONSE;
}

struct sample {
    uint64_t numbers[LEASE_FRAME_NUMBERS];
    size_t length;
    uint8_t bytes[LEASE_FRAME_LONGEST];
};

enum { KINDS = 7 };

/* Every byte of a tick or an end is another, so that a misplaced one shows. */
static const struct sample samples[KINDS] = {
    {{1, 7, 4, 0x060504030201, 7, 0, 0, 0, 0}, 15,
        {15, 0, 1, 0, 7, 4, 1, 2, 3, 4, 5, 6, 0, 0, 7}},
    {{2, 5, 3, 0x161514131211, 3, 0, 0, 0, 0}, 15,
        {15, 0, 2, 0, 5, 3, 0x11, 0x12, 0x13, 0x14, 0x15, 0x16, 0, 0, 3}},
    {{3, 8, 2, 0x262524232221, 2, 0x363534333231, 6, 1, 0x464544434241}, 33,
        {33, 0, 3, 0, 8, 2, 0x21, 0x22, 0x23, 0x24, 0x25, 0x26, 0, 0, 2,
            0x31, 0x32, 0x33, 0x34, 0x35, 0x36, 0, 0, 6,
            1, 0x41, 0x42, 0x43, 0x44, 0x45, 0x46, 0, 0}},
    {{4, 6, 8, 0x565554535251, 6, 0, 0, 5, 0x666564636261}, 24,
        {24, 0, 4, 0, 6, 8, 0x51, 0x52, 0x53, 0x54, 0x55, 0x56, 0, 0, 6,
            5, 0x61, 0x62, 0x63, 0x64, 0x65, 0x66, 0, 0}},
    {{5, 1, 4, 0x767574737271, 4, 0, 0, 0, 0}, 15,
        {15, 0, 5, 0, 1, 4, 0x71, 0x72, 0x73, 0x74, 0x75, 0x76, 0, 0, 4}},
    {{6, 8, 0, 0x868584838281, 8, 0, 0, 3, 0x969594939291}, 24,
        {24, 0, 6, 0, 8, 0, 0x81, 0x82, 0x83, 0x84, 0x85, 0x86, 0, 0, 8,
            3, 0x91, 0x92, 0x93, 0x94, 0x95, 0x96, 0, 0}},
    {{7, 2, 5, 0xB6B5B4B3B2B1, 2, 0, 0, 0, 0}, 15,
        {15, 0, 7, 0, 2, 5, 0xB1, 0xB2, 0xB3, 0xB4, 0xB5, 0xB6, 0, 0, 2}},
};

#endif
