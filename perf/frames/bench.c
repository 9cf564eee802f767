/*
 * Times the library's calls beside the hand-written ones: for each kind and
 * each direction the best time per call of both, on the same buffers, and the
 * library's as a multiple of the other.
 */
#define _POSIX_C_SOURCE 199309L
#include <stdio.h>
#include <stdlib.h>
#include <string.h>
#include <time.h>

#include "hand.h"
#include "messages.h"

enum {
    N = LEASE_FRAME_HOSTS,
    MESSAGES = 32,          /* of a kind, each with another ballot */
    PASSES = 32,            /* over the messages, between two looks at the clock */
    ROUNDS = 8000
};

static const struct implementation library = {"library",
        lease_frame_read, lease_frame_write, lease_frame_write_to};
static const struct implementation hand = {"hand-written",
        hand_read, hand_write, hand_write_to};

/* The messages of one kind, their frames and their receivers. */
static struct {
    uint64_t numbers[MESSAGES][LEASE_FRAME_NUMBERS];
    uint8_t frames[MESSAGES][LEASE_FRAME_LONGEST];
    size_t frame_length;
    uint16_t receivers;
} given;

/* What the last call gave. */
static struct {
    uint64_t numbers[LEASE_FRAME_NUMBERS];
    uint8_t bytes[LEASE_FRAME_LONGEST_SET];
} result;

/* Calls one side once for each message, and adds up lengths, offsets and answers. */
typedef size_t pass(const struct implementation *side);

static size_t read_pass(const struct implementation *side)
{
    size_t sum = 0, length, offset;
    for (int i = 0; i < MESSAGES; i++) {
        sum += side->read(N, given.frames[i], given.frame_length, result.numbers,
                &length, &offset);
        sum += length + offset;
    }
    return sum;
}

static size_t write_pass(const struct implementation *side)
{
    size_t sum = 0, length;
    for (int i = 0; i < MESSAGES; i++) {
        sum += write_message(side->write, N, given.numbers[i],
                result.bytes, sizeof result.bytes, &length);
        sum += length;
    }
    return sum;
}

static size_t write_to_pass(const struct implementation *side)
{
    size_t sum = 0, length;
    for (int i = 0; i < MESSAGES; i++) {
        sum += write_message_to(side->write_to, N, given.numbers[i], given.receivers,
                result.bytes, sizeof result.bytes, &length);
        sum += length;
    }
    return sum;
}

static const struct direction {
    const char *name;
    pass *pass;
} directions[] = {
    {"read", read_pass},
    {"write", write_pass},
    {"write to a set", write_to_pass},
};
enum { DIRECTIONS = 3 };

static void make_messages(const struct sample *sample)
{
    uint16_t ballot_host = (uint16_t)(1u << sample->numbers[LEASE_FRAME_AT_BALLOT_HOST]);
    given.frame_length = sample->length;
    given.receivers = is_response(sample->numbers[LEASE_FRAME_AT_KIND])
            ? ballot_host : (1u << N) - 1;
    for (int i = 0; i < MESSAGES; i++) {
        size_t length;
        memcpy(given.numbers[i], sample->numbers, sizeof given.numbers[i]);
        given.numbers[i][LEASE_FRAME_AT_BALLOT_TICK] += (uint64_t)i;
        write_message(hand_write, N, given.numbers[i], given.frames[i],
                sizeof given.frames[i], &length);
    }
}

/* Both sides must do the same work for their times to be compared. */
static void check_same(const struct direction *direction, size_t frames)
{
    size_t expected = MESSAGES * frames * given.frame_length;
    memset(&result, 0, sizeof result);
    size_t hand_sum = direction->pass(&hand);
    __typeof__(result) hand_result = result;
    memset(&result, 0, sizeof result);
    size_t library_sum = direction->pass(&library);
    if (hand_sum != expected || library_sum != expected
            || memcmp(&hand_result, &result, sizeof result) != 0) {
        fprintf(stderr, "bench: %s: the library and the hand-written differ\n", direction->name);
        exit(1);
    }
}

/* Nanoseconds for a call, in one round. */
static double time_round(const struct direction *direction, const struct implementation *side)
{
    static volatile size_t sink;
    struct timespec start, stop;
    size_t sum = 0;
    clock_gettime(CLOCK_MONOTONIC, &start);
    for (int i = 0; i < PASSES; i++)
        sum += direction->pass(side);
    clock_gettime(CLOCK_MONOTONIC, &stop);
    sink = sum;
    (void)sink;
    return ((double)(stop.tv_sec - start.tv_sec) * 1e9
            + (double)(stop.tv_nsec - start.tv_nsec)) / (PASSES * MESSAGES);
}

/* Times both sides in turn, prints a line and gives the ratio of their best times. */
static double measure(uint64_t kind, const struct direction *direction)
{
    double best_library = 1e9, best_hand = 1e9;
    for (int i = 0; i < ROUNDS; i++) {
        double library_time = time_round(direction, &library);
        double hand_time = time_round(direction, &hand);
        best_library = library_time < best_library ? library_time : best_library;
        best_hand = hand_time < best_hand ? hand_time : best_hand;
    }
    double ratio = best_library / best_hand;
    printf("%4u  %-14s  %5.2f  %10.2f  %15.2f\n", (unsigned)kind, direction->name,
            ratio, best_library, best_hand);
    return ratio;
}

/* Measures each direction of one kind, and gives the highest ratio. */
static double measure_kind(const struct sample *sample)
{
    double worst = 0;
    make_messages(sample);
    for (int i = 0; i < DIRECTIONS; i++) {
        bool to_set = directions[i].pass == write_to_pass;
        check_same(&directions[i], to_set ? (size_t)__builtin_popcount(given.receivers) : 1);
        double ratio = measure(sample->numbers[LEASE_FRAME_AT_KIND], &directions[i]);
        worst = ratio > worst ? ratio : worst;
    }
    return worst;
}

int main(void)
{
    double worst = 0;
    printf("kind  direction       ratio  library ns  hand-written ns\n");
    for (int i = 0; i < KINDS; i++) {
        double ratio = measure_kind(&samples[i]);
        worst = ratio > worst ? ratio : worst;
    }
    printf("worst ratio %.2f\n", worst);
    return 0;
}
