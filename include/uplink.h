/* The uplink scheduler: which waiting packet a radio link sends next, with shares that can be shown.
 *
 * The caller keeps three things for each link and lends them to a call, for the length of that call alone:
 *   record   UPLINK_RECORD_WORDS words that only the scheduler looks into;
 *   lengths  UPLINK_PLACES 16-bit places, the lengths of the waiting packets;
 *   handles  UPLINK_PLACES 32-bit places, the caller's own names for them.
 * The promise on shares holds from an accepted opening on, for as long as all three go unaltered from call to call.
 *
 * What is charged. A packet is charged its length plus the header: the bytes that the radio sends with each packet, as
 * told at the opening, 0 for a link without any. Tags, clock, link time, leap width and the promise on shares count
 * charges. A length, in a call or in a reply, and a largest packet are the packet's own bytes.
 *
 * What is lent. Each pointer has to hold as many words or places as the count beside it says; NULL is for count 0
 * only. No two things that are lent to a call may overlap, but for an opening's two lists. Apart from that any values
 * may be handed in: a call never crashes, reads and writes nothing outside what is lent, and always returns. It keeps
 * no pointer, allocates nothing and does not block.
 *
 * Refusals. A refused arrival, pick or depth changes no word of what is lent. A refused opening (1, 3 to 6) leaves
 * the blank record, all zeros, and both memories as they were; where the record has the wrong number of words (101),
 * nothing is written.
 *
 * Before the opening nothing needs a value: an opening does not read the record, and where it is done it sets every
 * place of both memories. An arrival or pick before it answers 2, unless what stands there happens to be well formed;
 * the blank record is not.
 *
 * Keeping. Record and memories are plain numbers without pointers. Together they may be copied, moved and saved, and
 * used again, also by another process. They are in the machine's byte order, and the record's words are in the order
 * UPLINK_RECORD_ORDER: a machine of another byte order has to swap the bytes of each word and place, and a library of
 * another UPLINK_RECORD_ORDER has to open anew.
 *
 * Threads. Two calls on one record may not run at the same time: the caller locks. Calls on different records may.
 *
 * Stack, measured with the kit rattle-kit-13f, with the return address and the arguments that stand there: an opening
 * 1,424 bytes, an arrival 1,768, a pick 1,776, a depth 16. Where the loader binds memcpy or memset at the first call,
 * that call takes some 3,200 more.
 *
 * The library is built for x86_64-unknown-linux-gnu and has the C calling convention of that target. Of the program
 * that links it, it needs memcpy and memset and nothing else.
 *
 * Lengths are in bytes. Tags and clocks are in ticks: a byte takes the link 720 of them. */
#ifndef UPLINK_H
#define UPLINK_H

#include <stddef.h>
#include <stdint.h>

#ifdef __cplusplus
extern "C" {
#endif

/* Grows by one when a call, a number or a promise of this file is added, changed or taken away. In version 1 the names
 * began with gateway_; since version 3 an opening takes a header, which the record keeps and charges count; since
 * version 4 flows of equal tags take turns, and the record has one word more, which keeps whose turn it is. The library
 * does not tell its version: use the uplink.h that was put beside it. */
#define UPLINK_VERSION 4

#define UPLINK_RECORD_WORDS 132
#define UPLINK_RECORD_ORDER 4
#define UPLINK_PLACES 4096

/* The words of a pick's reply. */
#define UPLINK_REPLY_WORDS 6
#define UPLINK_REPLY_FLOW 0
#define UPLINK_REPLY_LENGTH 1
#define UPLINK_REPLY_HANDLE 2
#define UPLINK_REPLY_TAG 3
#define UPLINK_REPLY_LEAPT 4 /* 0 or 1 */
#define UPLINK_REPLY_CLOCK 5 /* after the pick */

/* The words of a depth's reply. */
#define UPLINK_DEPTH_WORDS 4
#define UPLINK_DEPTH_WAITING 0
#define UPLINK_DEPTH_SHARE 1
#define UPLINK_DEPTH_LARGEST 2
#define UPLINK_DEPTH_TAG 3

/* What a call answers. */
#define UPLINK_DONE 0
#define UPLINK_REFUSED_MEMORY 1   /* lengths or handles has not exactly UPLINK_PLACES places */
#define UPLINK_REFUSED_FORM 2     /* arrival, pick: the record is not well formed, see below */
#define UPLINK_REFUSED_LISTS 3    /* opening: the two lists differ in length, or have 0 or over 64 entries, or the
                                   * header is over 64 */
#define UPLINK_REFUSED_SHARE 4    /* opening: a share is outside 1 to 1,000; the flow is told */
#define UPLINK_REFUSED_LARGEST 5  /* opening: a largest packet is outside 1 to 1,500; the flow is told */
#define UPLINK_REFUSED_SUM 6      /* opening: the shares sum to more than 1,000 */
#define UPLINK_REFUSED_FLOW 7     /* arrival, depth: no such flow */
#define UPLINK_REFUSED_LENGTH 8   /* arrival: the length is 0 or over the flow's largest */
#define UPLINK_REFUSED_FULL 9     /* arrival: 64 packets already wait in that flow */
#define UPLINK_REFUSED_CLOCK 10   /* pick: something waits and the clock is 2^62 or more, see below */
#define UPLINK_IDLE 100           /* pick: nothing waits; clock, link time, all tags and the turn are 0 again */
#define UPLINK_REFUSED_RECORD 101 /* record has not exactly UPLINK_RECORD_WORDS words */
#define UPLINK_REFUSED_REPLY 102  /* pick, depth: reply has not exactly its number of words */

/* Well formed (2) is what docs/RULES.md, "The record", asks of the record and of the lengths that wait, and no more:
 *   - the header is 0 to 64, the turn 0 to 63;
 *   - 1 to 64 flows, each with a share of 1 to 1,000 and a largest packet of 1 to 1,500; the shares sum to at most
 *     1,000; the leap width is the greatest of the flows' (largest packet + header) x (720,000 / share, rounded up);
 *   - a flow's first place is 0 to 63, its number waiting 0 to 64, each of its waiting lengths 1 to its largest packet;
 *   - the tag of a flow that waits is from the clock to 3 leap widths above it, any other flow's at most 2 above it;
 *   - the link time is at most the clock, and the clock is below 2^62 + 1,127,206,080;
 *   - all that belongs to flows beyond the last is 0.
 * What the scheduler leaves after an accepted opening is always so. Some records that it could never have left are so
 * too: a record that was damaged is not sure to be refused, and the promise on shares does not hold for it.
 *
 * The clock's end (10) comes after over 4,091 million picks without one UPLINK_IDLE, at the earliest: a pick adds at
 * most a leap of 1,126,080,000 and 720 x 1,564 to the clock. From then on every pick is refused: what waits is not
 * sent, and so UPLINK_IDLE does not come. Only an opening helps. What waits stays in the memories, and arrivals are
 * taken until their flow is full. The opening sets all places to 0 and so forgets what waits: the caller, who knows
 * these packets by their handles, brings them in again. */

/* Opens a table of 1 to 64 flows: share i (thousandths of the link) and largest packet i (bytes) are flow i's. `header`
 * is what the link adds to each packet, 0 to 64 bytes.
 * Where it is done, record is that of the table with nothing waiting, and every place of both memories is 0.
 * Its answer is taken apart by uplink_number and, with 4 and 5, uplink_flow.
 * Order of refusals: 101, 1, 3, then flow by flow 4 before 5, then 6. */
uint64_t uplink_opening(const uint32_t *shares, size_t shares_count,
                        const uint32_t *largest, size_t largest_count,
                        uint32_t header,
                        uint64_t *record, size_t record_words,
                        uint16_t *lengths, size_t lengths_places,
                        uint32_t *handles, size_t handles_places);

/* Of an opening's answer the number, which is one of the list above, and the flow that 4 and 5 tell (else 0). */
static inline uint32_t uplink_number(uint64_t answer)
{
    return (uint32_t)answer;
}

static inline uint32_t uplink_flow(uint64_t answer)
{
    return (uint32_t)(answer >> 32);
}

/* A packet of `length` bytes, which the caller knows by `handle`, comes to `flow` and waits behind the flow's last one.
 * Answers a number of the list above. Order of refusals: 101, 1, 2, 7, 8, 9. */
uint32_t uplink_arrival(uint32_t flow, uint32_t length, uint32_t handle,
                        uint64_t *record, size_t record_words,
                        uint16_t *lengths, size_t lengths_places,
                        uint32_t *handles, size_t handles_places);

/* The packet to send next: it is in front at the flow of smallest tag, and of flows with equal tags at the first one
 * after the flow picked last, counting round from 63 to 0; after an opening or UPLINK_IDLE, counting from flow 0 on.
 * Where the answer is UPLINK_DONE, reply holds the packet, which waits no more; with any other answer no word of reply
 * changes. Order of answers: 101, 102, 1, 2, UPLINK_IDLE, 10. */
uint32_t uplink_pick(uint64_t *record, size_t record_words,
                     uint16_t *lengths, size_t lengths_places,
                     uint32_t *handles, size_t handles_places,
                     uint64_t *reply, size_t reply_words);

/* How many packets wait in `flow`, so that a gateway can push back before 9. Where the answer is UPLINK_DONE, reply
 * holds the number of packets that wait in the flow, its share, its largest packet and its tag, in this order; with any
 * other answer no word of reply changes. The record is only looked at, and its form is not tested: what stands in it is
 * told. A flow of 64 or more is no such flow, whatever number of flows the record holds.
 * Order of refusals: 101, 102, 7. */
uint32_t uplink_depth(uint32_t flow, const uint64_t *record, size_t record_words, uint64_t *reply, size_t reply_words);

#ifdef __cplusplus
}
#endif

#endif
