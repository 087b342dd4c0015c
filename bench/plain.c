#include "plain.h"

#include <string.h>

#define MAX_SHARE 1000
#define MAX_LARGEST 1500
#define MAX_HEADER 64
#define TICKS_PER_BYTE 720
#define PICK_END (UINT64_C(1) << 62) /* no pick from this clock on */
#define CLOCK_END (PICK_END + 1127206080)

/* "A byte of a flow costs the flow 720,000 / q ticks, rounded up." One entry for each share from 1 to 1,000. */
#define COST(q) (720000 + (q) - 1) / (q)
#define COST10(q) \
    COST(q), COST(q + 1), COST(q + 2), COST(q + 3), COST(q + 4), \
    COST(q + 5), COST(q + 6), COST(q + 7), COST(q + 8), COST(q + 9)
#define COST100(q) \
    COST10(q), COST10(q + 10), COST10(q + 20), COST10(q + 30), COST10(q + 40), \
    COST10(q + 50), COST10(q + 60), COST10(q + 70), COST10(q + 80), COST10(q + 90)

static const uint32_t cost_table[MAX_SHARE] = {
    COST100(1), COST100(101), COST100(201), COST100(301), COST100(401),
    COST100(501), COST100(601), COST100(701), COST100(801), COST100(901)
};

static uint32_t cost(uint32_t share)
{
    return cost_table[share - 1];
}

/* "a packet's charge is length plus header" */
static uint32_t charge(const struct plain_record *record, uint32_t length)
{
    return length + record->header;
}

/* What a flow's largest packet costs it; "the leap width is the largest value, over the table's flows". */
static uint32_t reach(const struct plain_record *record, uint32_t share, uint32_t largest)
{
    return charge(record, largest) * cost(share);
}

static uint64_t larger(uint64_t a, uint64_t b)
{
    return a > b ? a : b;
}

/* "Flow f owns places 64 f to 64 f + 63; its k-th waiting packet is at 64 f + ((first + k) mod 64)." */
static size_t place(const struct plain_record *record, uint32_t f, unsigned k)
{
    return (size_t)PLAIN_RING * f + (record->flow[f].first + k) % PLAIN_RING;
}

#ifndef PLAIN_UNCHECKED

#ifdef PLAIN_STRETCHES

/* Every length of a stretch is from 1 to the largest. It goes on to the end, so that the compiler may take several
 * lengths at once. */
static bool stretch_fits(const uint16_t *lengths, unsigned count, uint16_t largest)
{
    uint16_t most = largest - 1;
    uint16_t wrong = 0;

    for (unsigned k = 0; k < count; k++) {
        uint16_t n = lengths[k] - 1;
        wrong |= n > most ? n - most : 0;
    }
    return wrong == 0;
}

/* "every waiting length from 1 to the flow's largest": all places, or one stretch of them, or two */
static bool lengths_fit(const struct plain_flow *flow, const uint16_t *ring)
{
    unsigned end = flow->first + flow->waiting;

    if (flow->waiting == PLAIN_RING)
        return stretch_fits(ring, PLAIN_RING, flow->largest);
    if (end <= PLAIN_RING)
        return stretch_fits(ring + flow->first, flow->waiting, flow->largest);
    return stretch_fits(ring + flow->first, PLAIN_RING - flow->first, flow->largest)
        && stretch_fits(ring, end - PLAIN_RING, flow->largest);
}

#else

/* "every waiting length from 1 to the flow's largest" */
static bool lengths_fit(const struct plain_flow *flow, const uint16_t *ring)
{
    for (unsigned k = 0; k < flow->waiting; k++) {
        unsigned n = ring[(flow->first + k) % PLAIN_RING];
        if (n == 0 || n > flow->largest)
            return false;
    }
    return true;
}

#endif

/* "a waiting flow's tag is at least the clock and at most clock + 3 leaps; any other flow's tag is at most
 * clock + 2 leaps" */
static bool tag_fits(const struct plain_flow *flow, uint64_t clock, uint64_t leap)
{
    if (flow->waiting > 0)
        return flow->tag >= clock && flow->tag <= clock + 3 * leap;
    return flow->tag <= clock + 2 * leap;
}

static bool is_blank(const struct plain_flow *flow)
{
    return flow->tag == 0 && flow->share == 0 && flow->largest == 0 && flow->first == 0 && flow->waiting == 0;
}

/* "The record is well formed when all of these hold" */
static bool well_formed(const struct plain_record *record, const uint16_t *lengths)
{
    uint32_t sum = 0;
    uint32_t leap = 0;

    if (record->flows < 1 || record->flows > PLAIN_FLOWS || record->header > MAX_HEADER)
        return false;
    if (record->turn >= PLAIN_FLOWS)
        return false;
    if (record->clock >= CLOCK_END || record->link > record->clock)
        return false;
    for (uint32_t f = 0; f < record->flows; f++) {
        const struct plain_flow *flow = &record->flow[f];

        if (flow->share < 1 || flow->share > MAX_SHARE)
            return false;
        if (flow->largest < 1 || flow->largest > MAX_LARGEST)
            return false;
        if (flow->first >= PLAIN_RING || flow->waiting > PLAIN_RING)
            return false;
        if (!tag_fits(flow, record->clock, record->leap))
            return false;
        if (!lengths_fit(flow, lengths + PLAIN_RING * f))
            return false;
        sum += flow->share;
        if (leap < reach(record, flow->share, flow->largest))
            leap = reach(record, flow->share, flow->largest);
    }
    if (sum > MAX_SHARE || leap != record->leap)
        return false;
    for (uint32_t f = record->flows; f < PLAIN_FLOWS; f++)
        if (!is_blank(&record->flow[f]))
            return false;
    return true;
}

#endif

/* "Opening: 1, 3, then flow by flow from 0, 4 before 5, then 6." */
static enum plain_answer refuse_table(const uint32_t *shares, size_t shares_count,
                                      const uint32_t *largest, size_t largest_count, uint32_t header, uint32_t *at)
{
    uint32_t sum = 0;

    if (shares_count != largest_count || shares_count == 0 || shares_count > PLAIN_FLOWS || header > MAX_HEADER)
        return PLAIN_BAD_LISTS;
    for (uint32_t f = 0; f < shares_count; f++) {
        if (shares[f] < 1 || shares[f] > MAX_SHARE) {
            *at = f;
            return PLAIN_BAD_SHARE;
        }
        if (largest[f] < 1 || largest[f] > MAX_LARGEST) {
            *at = f;
            return PLAIN_BAD_LARGEST;
        }
        sum += shares[f];
    }
    return sum > MAX_SHARE ? PLAIN_BAD_SUM : PLAIN_DONE;
}

/* "It gives the record with clock, link time, tags, firsts and waiting numbers 0, and sets all 4,096 places of both
 * memories to 0." The turn is 0 too. */
enum plain_answer plain_opening(const uint32_t *shares, size_t shares_count,
                                const uint32_t *largest, size_t largest_count,
                                uint32_t header,
                                struct plain_record *record,
                                uint16_t *lengths, size_t lengths_places,
                                uint32_t *handles, size_t handles_places,
                                uint32_t *at)
{
    enum plain_answer answer;

    *at = 0;
    memset(record, 0, sizeof *record); /* "A refusal returns .. (opening: the blank record)" */
    if (lengths_places != PLAIN_PLACES || handles_places != PLAIN_PLACES)
        return PLAIN_BAD_MEMORY;
    answer = refuse_table(shares, shares_count, largest, largest_count, header, at);
    if (answer != PLAIN_DONE)
        return answer;

    record->flows = (uint32_t)shares_count;
    record->header = header;
    for (uint32_t f = 0; f < record->flows; f++) {
        record->flow[f].share = (uint16_t)shares[f];
        record->flow[f].largest = (uint16_t)largest[f];
        if (record->leap < reach(record, shares[f], largest[f]))
            record->leap = reach(record, shares[f], largest[f]);
    }
    memset(lengths, 0, PLAIN_PLACES * sizeof *lengths);
    memset(handles, 0, PLAIN_PLACES * sizeof *handles);
    return PLAIN_DONE;
}

/* "The packet goes behind the flow's last one. If the flow was empty, its tag becomes the larger of tag and clock, plus
 * n x cost. Otherwise no tag changes." Here and in a pick n is the charge. */
enum plain_answer plain_arrival(uint32_t f, uint32_t length, uint32_t handle,
                                struct plain_record *record,
                                uint16_t *lengths, size_t lengths_places,
                                uint32_t *handles, size_t handles_places)
{
    struct plain_flow *flow;
    size_t last;

    if (lengths_places != PLAIN_PLACES || handles_places != PLAIN_PLACES)
        return PLAIN_BAD_MEMORY;
#ifndef PLAIN_UNCHECKED
    if (!well_formed(record, lengths))
        return PLAIN_BAD_FORM;
#endif
    if (f >= record->flows)
        return PLAIN_NO_FLOW;
    flow = &record->flow[f];
    if (length == 0 || length > flow->largest)
        return PLAIN_BAD_LENGTH;
    if (flow->waiting == PLAIN_RING)
        return PLAIN_FULL;

    last = place(record, f, flow->waiting);
    lengths[last] = (uint16_t)length;
    handles[last] = handle;
    if (flow->waiting == 0)
        flow->tag = larger(flow->tag, record->clock) + (uint64_t)charge(record, length) * cost(flow->share);
    flow->waiting++;
    return PLAIN_DONE;
}

/* Of the flows from `f` up to `end`, the first waiting one whose tag is the smallest and below *smallest, which becomes
 * that tag; `best` if there is none. */
static inline uint32_t choose_from(const struct plain_record *record, uint32_t f, uint32_t end, uint64_t *smallest,
                                   uint32_t best)
{
    for (; f < end; f++) {
        const struct plain_flow *flow = &record->flow[f];

        if (flow->waiting > 0 && flow->tag < *smallest) {
            *smallest = flow->tag;
            best = f;
        }
    }
    return best;
}

/* "Take the waiting flow with the smallest tag", and "among equals, the first flow after the one picked last, counting
 * round": from the turn on, and then those below the turn. The number of flows if nothing waits. */
static uint32_t choose(const struct plain_record *record)
{
    uint32_t turn = record->turn < record->flows ? (uint32_t)record->turn : 0;
    uint64_t smallest = UINT64_MAX; /* above the tag of every well-formed record */
    uint32_t best = choose_from(record, turn, record->flows, &smallest, record->flows);

    return choose_from(record, 0, turn, &smallest, best);
}

/* "clock, link time and all tags become 0; all else stays", but the turn, which is "0 after an opening or Idle" */
static void reset(struct plain_record *record)
{
    record->clock = 0;
    record->link = 0;
    record->turn = 0;
    for (uint32_t f = 0; f < record->flows; f++)
        record->flow[f].tag = 0;
}

/* Steps 3 to 5 of a pick, for the chosen flow f. */
static void serve(struct plain_record *record, uint32_t f, uint16_t *lengths, uint32_t *handles,
                  struct plain_reply *reply)
{
    struct plain_flow *flow = &record->flow[f];
    size_t front = place(record, f, 0);
    uint64_t leap = record->leap;

    reply->flow = f;
    reply->length = lengths[front];
    reply->handle = handles[front];
    reply->tag = flow->tag;
    /* "If T is greater than clock + 2 leaps, add the leap width to the clock, once." */
    reply->leapt = flow->tag > record->clock + 2 * leap;
    if (reply->leapt)
        record->clock += leap;
    /* "Add 720 x n to clock and link time. The freed place becomes 0 in both memories; first goes on by one, 63 to
     * 0." */
    record->clock += (uint64_t)TICKS_PER_BYTE * charge(record, reply->length);
    record->link += (uint64_t)TICKS_PER_BYTE * charge(record, reply->length);
    reply->clock = record->clock;
    lengths[front] = 0;
    handles[front] = 0;
    flow->first = (uint16_t)((flow->first + 1) % PLAIN_RING);
    flow->waiting--;
    /* "If the flow still waits, its tag becomes the larger of T and clock, plus next length x cost." */
    if (flow->waiting > 0)
        flow->tag = larger(flow->tag, record->clock)
                  + (uint64_t)charge(record, lengths[place(record, f, 0)]) * cost(flow->share);
    /* the turn is "one past the last flow picked, 63 to 0" */
    record->turn = (f + 1) % PLAIN_FLOWS;
}

enum plain_answer plain_pick(struct plain_record *record,
                             uint16_t *lengths, size_t lengths_places,
                             uint32_t *handles, size_t handles_places,
                             struct plain_reply *reply)
{
    uint32_t f;

    if (lengths_places != PLAIN_PLACES || handles_places != PLAIN_PLACES)
        return PLAIN_BAD_MEMORY;
#ifndef PLAIN_UNCHECKED
    if (!well_formed(record, lengths))
        return PLAIN_BAD_FORM;
#endif
    f = choose(record);
    if (f == record->flows) {
        reset(record);
        return PLAIN_IDLE;
    }
    /* "something waits and the clock is 2^62 or more" */
    if (record->clock >= PICK_END)
        return PLAIN_CLOCK_OUT;
    serve(record, f, lengths, handles, reply);
    return PLAIN_DONE;
}

/* Refused with 7 where there is no such flow, whatever number of flows the record holds. */
enum plain_answer plain_depth(uint32_t f, const struct plain_record *record, struct plain_flow *flow)
{
    if (f >= record->flows || f >= PLAIN_FLOWS)
        return PLAIN_NO_FLOW;
    *flow = record->flow[f];
    return PLAIN_DONE;
}
