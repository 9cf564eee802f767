/*
 * Reading and writing the frames that the hosts of a lease cell send each
 * other, for host programs written in C.
 *
 * Link with target/staticlib/libframe_c.a, which `./build frame_c` makes and
 * which is for x86-64 Linux. No function allocates, blocks, or keeps a pointer
 * after it returns.
 *
 * `length`, `offset` and `numbers` must not be NULL. A byte slice may be NULL if
 * its length is 0. No two arguments may overlap in memory. What `out`,
 * `numbers`, `*length` and `*offset` hold before a call is not looked at: they
 * need no value.
 *
 * A host number, as n, is 8 bits wide and a kind or a set of receivers 16. C
 * cuts a larger number down to that before the call, so that a host 256 arrives
 * as host 0 and is not refused: keep such numbers out, or in these types.
 */
#ifndef LEASE_FRAME_H
#define LEASE_FRAME_H

#include <stddef.h>
#include <stdint.h>

#ifdef __cplusplus
extern "C" {
#endif

/* What a call answers: done, or why it is refused. */
enum lease_frame_answer {
    LEASE_FRAME_DONE = 0,
    LEASE_FRAME_CELL = 1,   /* n is not 1 to 9 */
    LEASE_FRAME_CUT = 2,    /* under 4 bytes, or fewer than the frame's length */
    LEASE_FRAME_KIND = 3,   /* not one of the seven kinds */
    LEASE_FRAME_LENGTH = 4, /* the length field is above that kind's length */
    LEASE_FRAME_HOST = 5,   /* a host number of n or more */
    LEASE_FRAME_TICK = 6,   /* a tick or an end above its limit */
    LEASE_FRAME_PARTY = 7,  /* sender or target is not the ballot's host */
    LEASE_FRAME_ROOM = 8,   /* lent bytes too few for what is written */
    LEASE_FRAME_SHORT = 17  /* the length field is below that kind's length */
};

/*
 * The kinds of message. In a prepare request, a propose request, a learn
 * message and a release request the sender must be the ballot's host; in the
 * responses the target must be.
 */
enum lease_frame_kind {
    LEASE_FRAME_PREPARE_REQUEST = 1,
    LEASE_FRAME_PREPARE_RESPONSE_EMPTY = 2,
    LEASE_FRAME_PREPARE_RESPONSE_LEASE = 3,
    LEASE_FRAME_PROPOSE_REQUEST = 4,
    LEASE_FRAME_PROPOSE_RESPONSE = 5,
    LEASE_FRAME_LEARN = 6,
    LEASE_FRAME_RELEASE_REQUEST = 7
};

/* The places of a message's numbers, as reading gives them. */
enum lease_frame_place {
    LEASE_FRAME_AT_KIND,
    LEASE_FRAME_AT_SENDER,
    LEASE_FRAME_AT_TARGET,
    LEASE_FRAME_AT_BALLOT_TICK,
    LEASE_FRAME_AT_BALLOT_HOST,
    LEASE_FRAME_AT_ACCEPTED_TICK, /* kind 3 */
    LEASE_FRAME_AT_ACCEPTED_HOST, /* kind 3 */
    LEASE_FRAME_AT_OWNER,         /* kinds 3, 4 and 6 */
    LEASE_FRAME_AT_END,           /* kinds 3 and 4: keepers' end; 6: holder's end */
    LEASE_FRAME_NUMBERS           /* how many there are */
};

/* The most hosts in a cell, and the most bytes of a frame and of a set of frames. */
enum lease_frame_size {
    LEASE_FRAME_HOSTS = 9,
    LEASE_FRAME_LONGEST = 33,
    LEASE_FRAME_LONGEST_SET = LEASE_FRAME_HOSTS * LEASE_FRAME_LONGEST
};

/* Limits: a tick is at most 2^48, an end at most 2^48 + 2^31. */
#define LEASE_FRAME_LAST_TICK (UINT64_C(1) << 48)
#define LEASE_FRAME_LAST_END (LEASE_FRAME_LAST_TICK + (UINT64_C(1) << 31))

/*
 * Reads the frame at the start of `bytes`, in a cell of n hosts. Bytes after
 * the frame are not looked at.
 *
 * Done: `numbers` holds the message, with 0 for those its kind lacks, *length
 * is the frame's length and *offset is 0. Refused: *length is 0, `numbers` is as
 * it was and *offset says where. Refusals are checked in the order 1, 2 (under 4
 * bytes), 3, 4 or 17, 2, 5, 6, 7.
 *
 * The offset of a refusal is that of the first field in `bytes` that gives its
 * number, the one at the lowest offset:
 *
 *   1      0, since n does not stand in the bytes
 *   2      bytes_len, where the next byte would have to be
 *   3      2, the kind
 *   4, 17  0, the length
 *   5      the first host number of n or more: sender 4, target 5, ballot host
 *          14; in kind 3 accepted host 23 and owner 24, in 4 and 6 owner 15
 *   6      the first tick or end above its limit: ballot tick 6; in kind 3
 *          accepted tick 15 and end 25, in 4 and 6 end 16
 *   7      the party that should have been the ballot's host: target 5 in a
 *          response, sender 4 in another kind
 *
 * So it lies within the bytes, but for 2, and for 1 if there are none.
 */
uint8_t lease_frame_read(uint8_t n, const uint8_t *bytes, size_t bytes_len,
        uint64_t numbers[LEASE_FRAME_NUMBERS], size_t *length, size_t *offset);

/*
 * Writes a message as a frame to the start of `out`. `end` is the keepers' end
 * in kinds 3 and 4, and the holder's end in kind 6. Numbers that the kind lacks
 * are not looked at.
 *
 * Done: *length is the number of bytes written; the rest of `out` is as it
 * was. Refused: *length is 0 and `out` is as it was. Refusals are checked in
 * the order 1, 3, 5, 6, 7, 8.
 */
uint8_t lease_frame_write(uint8_t n, uint16_t kind, uint8_t sender, uint8_t target,
        uint64_t ballot_tick, uint8_t ballot_host,
        uint64_t accepted_tick, uint8_t accepted_host,
        uint8_t owner, uint64_t end,
        uint8_t *out, size_t out_len, size_t *length);

/*
 * Writes a message once for each host in `receivers`, where bit h stands for
 * host h: frames end to end, receivers rising. As in lease_frame_write, `end`
 * is the keepers' end in kinds 3 and 4, and the holder's end in kind 6. Done and
 * refused are as there too; all frames are written or none.
 *
 * A set that names a host of n or more is refused by 5; a response to a set
 * that names any but the ballot's host, by 7. An empty set is checked like any
 * other, and then writes nothing.
 */
uint8_t lease_frame_write_to(uint8_t n, uint16_t kind, uint8_t sender,
        uint64_t ballot_tick, uint8_t ballot_host,
        uint64_t accepted_tick, uint8_t accepted_host,
        uint8_t owner, uint64_t end,
        uint16_t receivers, uint8_t *out, size_t out_len, size_t *length);

#ifdef __cplusplus
}
#endif

#endif
