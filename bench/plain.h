/* The uplink scheduler in plain C: the three calls of document 01, with the header and the turn of document 02, over a
 * record by pointer, and a look at one flow.
 *
 * The caller owns the record and the two memories. A refused opening leaves the blank record, which is all zeros, and
 * both memories as they were; any other refused call changes nothing.
 * With PLAIN_UNCHECKED defined, arrival and pick leave out the test that the record is well formed, and nothing else.
 * With PLAIN_STRETCHES defined, waiting lengths are tested a stretch at a time, not one by one. */
#ifndef PLAIN_H
#define PLAIN_H

#include <stdbool.h>
#include <stddef.h>
#include <stdint.h>

#define PLAIN_FLOWS 64
#define PLAIN_RING 64 /* places of one flow */
#define PLAIN_PLACES (PLAIN_FLOWS * PLAIN_RING)

enum plain_answer {
    PLAIN_DONE = 0,
    PLAIN_BAD_MEMORY = 1,
    PLAIN_BAD_FORM = 2,
    PLAIN_BAD_LISTS = 3,
    PLAIN_BAD_SHARE = 4,
    PLAIN_BAD_LARGEST = 5,
    PLAIN_BAD_SUM = 6,
    PLAIN_NO_FLOW = 7,
    PLAIN_BAD_LENGTH = 8,
    PLAIN_FULL = 9,
    PLAIN_CLOCK_OUT = 10,
    PLAIN_IDLE = 100
};

/* "for each flow: share, largest packet, tag, first place (0 to 63), number waiting (0 to 64)" */
struct plain_flow {
    uint64_t tag;
    uint16_t share;
    uint16_t largest;
    uint16_t first;
    uint16_t waiting;
};

/* "It holds the number of flows, the leap width, the clock, the link time, and for each flow: .."
 * "The record gains the turn, 0 to 63: one past the last flow picked, 63 to 0, and 0 after an opening or Idle." */
struct plain_record {
    uint32_t flows;
    uint32_t header; /* bytes */
    uint32_t leap;
    uint64_t clock;
    uint64_t link;
    struct plain_flow flow[PLAIN_FLOWS];
    uint64_t turn;
};

/* "The reply is flow, length, handle, T, leapt or not, clock." */
struct plain_reply {
    uint32_t flow;
    uint32_t length;
    uint32_t handle;
    uint64_t tag;
    bool leapt;
    uint64_t clock;
};

/* *at becomes the flow's number with PLAIN_BAD_SHARE and PLAIN_BAD_LARGEST, and 0 with every other answer. */
enum plain_answer plain_opening(const uint32_t *shares, size_t shares_count,
                                const uint32_t *largest, size_t largest_count,
                                uint32_t header,
                                struct plain_record *record,
                                uint16_t *lengths, size_t lengths_places,
                                uint32_t *handles, size_t handles_places,
                                uint32_t *at);

enum plain_answer plain_arrival(uint32_t f, uint32_t length, uint32_t handle,
                                struct plain_record *record,
                                uint16_t *lengths, size_t lengths_places,
                                uint32_t *handles, size_t handles_places);

/* *reply is written with PLAIN_DONE only. */
enum plain_answer plain_pick(struct plain_record *record,
                             uint16_t *lengths, size_t lengths_places,
                             uint32_t *handles, size_t handles_places,
                             struct plain_reply *reply);

/* *flow becomes flow f of any record at all, with PLAIN_DONE only. */
enum plain_answer plain_depth(uint32_t f, const struct plain_record *record, struct plain_flow *flow);

#endif
