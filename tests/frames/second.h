/*
 * A second implementation of the library's three calls, written from the
 * layout and the refusals alone, and what the tests use of it: the layout of a
 * frame without any check.
 */
#ifndef SECOND_H
#define SECOND_H

#include "messages.h"

read_call second_read;
write_call second_write;
write_to_call second_write_to;

/* Whether a frame of this kind carries the number at this place. */
bool second_carries(uint64_t kind, int place);

/* The length of a frame of this kind, or 0 if it is none of the seven. */
size_t second_length(uint64_t kind);

/* Lays out a message of any numbers at all, and gives the frame's length. */
size_t second_lay(const uint64_t *numbers, uint8_t *out);

#endif
