/* The two calls that are measured: of the proved library (with OURS defined), of its plain engine, which leaps backward
 * (with BACKWARD), or of the plain C beside them. */
#ifndef SIDE_H
#define SIDE_H

#include <stddef.h>
#include <stdint.h>

#include "../include/backward.h"
#include "../include/uplink.h"
#include "plain.h"

#ifdef OURS
#define LIBRARY(call) uplink_##call
#define RECORD_WORDS UPLINK_RECORD_WORDS
#elif defined BACKWARD
#define LIBRARY(call) backward_##call
#define RECORD_WORDS BACKWARD_RECORD_WORDS
#endif

#ifdef LIBRARY

typedef uint64_t side_record[RECORD_WORDS];
typedef uint64_t side_reply[UPLINK_REPLY_WORDS];
#define REPLY_FLOW(reply) ((uint32_t)(reply)[0])
#define REPLY_LENGTH(reply) ((uint32_t)(reply)[1])
#define REPLY_HANDLE(reply) ((uint32_t)(reply)[2])
#define REPLY_LEAPT(reply) ((reply)[4] != 0)

#else

typedef struct plain_record side_record[1];
typedef struct plain_reply side_reply[1];
#define REPLY_FLOW(reply) ((reply)->flow)
#define REPLY_LENGTH(reply) ((reply)->length)
#define REPLY_HANDLE(reply) ((reply)->handle)
#define REPLY_LEAPT(reply) ((reply)->leapt)

#endif

struct side {
    side_record record;
    uint16_t lengths[UPLINK_PLACES];
    uint32_t handles[UPLINK_PLACES];
};

static inline uint64_t side_opening(struct side *side, const uint32_t *shares, const uint32_t *largest, size_t flows,
                                    uint32_t header)
{
#ifdef LIBRARY
    return LIBRARY(opening)(shares, flows, largest, flows, header, side->record, RECORD_WORDS,
                            side->lengths, UPLINK_PLACES, side->handles, UPLINK_PLACES);
#else
    uint32_t at;

    return plain_opening(shares, flows, largest, flows, header, side->record,
                         side->lengths, UPLINK_PLACES, side->handles, UPLINK_PLACES, &at);
#endif
}

static inline uint32_t side_arrival(struct side *side, uint32_t flow, uint32_t length, uint32_t handle)
{
#ifdef LIBRARY
    return LIBRARY(arrival)(flow, length, handle, side->record, RECORD_WORDS,
                            side->lengths, UPLINK_PLACES, side->handles, UPLINK_PLACES);
#else
    return plain_arrival(flow, length, handle, side->record,
                         side->lengths, UPLINK_PLACES, side->handles, UPLINK_PLACES);
#endif
}

static inline uint32_t side_pick(struct side *side, side_reply reply)
{
#ifdef LIBRARY
    return LIBRARY(pick)(side->record, RECORD_WORDS, side->lengths, UPLINK_PLACES,
                         side->handles, UPLINK_PLACES, reply, UPLINK_REPLY_WORDS);
#else
    return plain_pick(side->record, side->lengths, UPLINK_PLACES, side->handles, UPLINK_PLACES, reply);
#endif
}

/* Puts the tag of each of the first flows, all of which wait, so far above the clock that the next pick leaps, or half
 * as far. Δ is the high half of word 0, the clock word 1, and the tags begin at word 3: include/uplink.h, specs/Image.
 * Of the plain C there is nothing to set. */
static inline void side_set_tags(struct side *side, uint32_t flows, int leaps)
{
#ifdef LIBRARY
    uint64_t width = side->record[0] >> 32;

    for (uint32_t f = 0; f < flows; f++)
        side->record[3 + f] = side->record[1] + (leaps ? 2 * width + 1 : width);
#else
    (void)side, (void)flows, (void)leaps;
#endif
}

#endif
