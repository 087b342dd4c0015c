/* The plain engine: the scheduler of uplink.h by leap backward, to be laid beside it. It sends the same packets in the
 * same order and refuses the same calls. A gateway takes uplink.h; this one is there to be compared and measured.
 *
 * Memories, lists, replies, refusals and what holds of anything that is lent are as uplink.h says, with its numbers.
 * What differs:
 *   - The record has BACKWARD_RECORD_WORDS words. Word 0 is the number of flows in its low 16 bits, the header in the
 *     next 16 and the leap width in the high 32; word 1 is the clock, word 2 the link time; words 3 to 66 are the tags
 *     of flows 0 to 63 in two's complement; words 67 to 82 are the shares, 83 to 98 the largest packets, 99 to 114 the
 *     first places and 115 to 130 the numbers waiting, four flows to a word, 16 bits each, the lowest flow lowest.
 *     Word 131 is the turn, word 132 the sum of the widths leapt since the opening or the last UPLINK_IDLE.
 *   - At a leap the clock stays, every tag goes down by the leap width and word 132 goes up by it. The tag of a flow
 *     with nothing waiting may be below zero. Tag and clock of a reply are this engine's own, after the leap: with word
 *     132 added they are those of uplink.h.
 *   - Well formed (2) and the clock's end (10) are judged with word 132 added to clock and tags.
 *   - UPLINK_REFUSED_RECORD (101): record has not exactly BACKWARD_RECORD_WORDS words. At UPLINK_IDLE word 132 is 0
 *     again.
 *
 * The library is libbackward.a; it needs of a program what libuplink.a needs, and not that library itself. */
#ifndef UPLINK_BACKWARD_H
#define UPLINK_BACKWARD_H

#include "uplink.h"

#ifdef __cplusplus
extern "C" {
#endif

#define BACKWARD_RECORD_WORDS 133
#define BACKWARD_RECORD_SUM 132 /* the word of the sum */

/* uplink_opening: its answer is taken apart by uplink_number and uplink_flow. */
uint64_t backward_opening(const uint32_t *shares, size_t shares_count,
                          const uint32_t *largest, size_t largest_count,
                          uint32_t header,
                          uint64_t *record, size_t record_words,
                          uint16_t *lengths, size_t lengths_places,
                          uint32_t *handles, size_t handles_places);

/* uplink_arrival. */
uint32_t backward_arrival(uint32_t flow, uint32_t length, uint32_t handle,
                          uint64_t *record, size_t record_words,
                          uint16_t *lengths, size_t lengths_places,
                          uint32_t *handles, size_t handles_places);

/* uplink_pick, with a reply of UPLINK_REPLY_WORDS words. */
uint32_t backward_pick(uint64_t *record, size_t record_words,
                       uint16_t *lengths, size_t lengths_places,
                       uint32_t *handles, size_t handles_places,
                       uint64_t *reply, size_t reply_words);

#ifdef __cplusplus
}
#endif

#endif
