/*
 * A hand-written reader and writer of frames, with the interface and the
 * checks of lease_frame.h: what the library's speed is measured against.
 */
#ifndef HAND_H
#define HAND_H

#include "lease_frame.h"

uint8_t hand_read(uint8_t n, const uint8_t *bytes, size_t bytes_len,
        uint64_t numbers[LEASE_FRAME_NUMBERS], size_t *length, size_t *offset);

uint8_t hand_write(uint8_t n, uint16_t kind, uint8_t sender, uint8_t target,
        uint64_t ballot_tick, uint8_t ballot_host,
        uint64_t accepted_tick, uint8_t accepted_host,
        uint8_t owner, uint64_t end,
        uint8_t *out, size_t out_len, size_t *length);

uint8_t hand_write_to(uint8_t n, uint16_t kind, uint8_t sender,
        uint64_t ballot_tick, uint8_t ballot_host,
        uint64_t accepted_tick, uint8_t accepted_host,
        uint8_t owner, uint64_t end,
        uint16_t receivers, uint8_t *out, size_t out_len, size_t *length);

#endif
