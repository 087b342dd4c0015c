#include "state.h"

#include <string.h>

#include "dice.h"

#define TWO62 (UINT64_C(1) << 62)
#define BEYOND_TWO62 1127206080 /* the widest leap, and 720 ticks for each byte of the greatest charge */
#define CLOCK_END (TWO62 + BEYOND_TWO62)

/* Where the words of the tags and of the four fields begin, and the word of the turn. */
enum { TAGS = 3, SHARES = 67, LARGEST = 83, FIRSTS = 99, WAITING = 115, TURN = 131 };

static void put_entry(uint64_t *field, size_t f, uint16_t entry)
{
    field[f / 4] |= (uint64_t)entry << 16 * (f % 4);
}

static uint16_t entry_at(const uint64_t *field, size_t f)
{
    return (uint16_t)(field[f / 4] >> 16 * (f % 4));
}

void to_words(const struct plain_record *record, uint64_t words[UPLINK_RECORD_WORDS])
{
    memset(words, 0, UPLINK_RECORD_WORDS * sizeof *words);
    words[0] = record->flows | (uint64_t)record->header << 16 | (uint64_t)record->leap << 32;
    words[1] = record->clock;
    words[2] = record->link;
    words[TURN] = record->turn;
    for (size_t f = 0; f < PLAIN_FLOWS; f++) {
        const struct plain_flow *flow = &record->flow[f];

        words[TAGS + f] = flow->tag;
        put_entry(words + SHARES, f, flow->share);
        put_entry(words + LARGEST, f, flow->largest);
        put_entry(words + FIRSTS, f, flow->first);
        put_entry(words + WAITING, f, flow->waiting);
    }
}

void from_words(struct plain_record *record, const uint64_t words[UPLINK_RECORD_WORDS])
{
    record->flows = (uint16_t)words[0];
    record->header = (uint16_t)(words[0] >> 16);
    record->leap = (uint32_t)(words[0] >> 32);
    record->clock = words[1];
    record->link = words[2];
    record->turn = words[TURN];
    for (size_t f = 0; f < PLAIN_FLOWS; f++) {
        struct plain_flow *flow = &record->flow[f];

        flow->tag = words[TAGS + f];
        flow->share = entry_at(words + SHARES, f);
        flow->largest = entry_at(words + LARGEST, f);
        flow->first = entry_at(words + FIRSTS, f);
        flow->waiting = entry_at(words + WAITING, f);
    }
}

uint32_t make_flows(void)
{
    static const uint32_t often[] = {1, 1, 2, 2, 3, 4, 61, 63, 64, 64};

    return one_in(3) ? 1 + (uint32_t)below(64) : ONE_OF(often);
}

uint32_t make_header(void)
{
    return one_in(4) ? 12 : (uint32_t)spread(64);
}

/* Every flow gets 1; of what is left, nothing, all or some is dealt out in a few portions. */
void make_table(uint32_t *shares, uint32_t *largest, uint32_t flows)
{
    uint32_t left = one_in(3) ? 1000 - flows : (uint32_t)spread(1000 - flows);
    uint32_t most = one_in(3) ? 1 + (uint32_t)below(20) : 1500;

    for (uint32_t f = 0; f < flows; f++) {
        shares[f] = 1;
        largest[f] = 1 + (uint32_t)spread(most - 1);
    }
    while (left > 0) {
        uint32_t portion = 1 + (uint32_t)spread(left - 1);

        shares[below(flows)] += portion;
        left -= portion;
    }
}

static uint64_t make_clock(void)
{
    switch (below(8)) {
    case 0: return spread(10);
    case 1: return below(TWO62);
    case 2: return TWO62 - 1 - spread(3000000000);
    case 3: return TWO62 - 1;
    case 4: return TWO62 + spread(2);
    case 5: return CLOCK_END - 1 - spread(2);
    case 6: return TWO62 + below(BEYOND_TWO62);
    default: return below(4000000000);
    }
}

static uint64_t make_tag(const struct plain_record *record, bool waits)
{
    uint64_t leap = record->leap;
    uint64_t high = record->clock + (waits ? 3 : 2) * leap;
    uint64_t low = waits ? record->clock : 0;

    switch (below(6)) {
    case 0: return low;
    case 1: return record->clock + 2 * leap;
    case 2: return waits ? record->clock + 2 * leap + 1 : record->clock;
    case 3: return record->clock + spread(2 * leap);
    default: return high - spread(high - low);
    }
}

/* A turn of a record with so many flows: at one of them, just past the last, or any. */
static uint64_t make_turn(uint32_t flows)
{
    switch (below(4)) {
    case 0: return spread(63);
    case 1: return flows % PLAIN_FLOWS;
    default: return spread(flows - 1);
    }
}

static void fill_ring(struct state *state, uint32_t f, bool tidy)
{
    struct plain_flow *flow = &state->record.flow[f];

    for (uint32_t k = 0; k < 64; k++) {
        size_t place = 64 * f + (flow->first + k) % 64;

        if (k < flow->waiting)
            state->lengths[place] = (uint16_t)(1 + spread(flow->largest - 1u));
        else
            state->lengths[place] = tidy ? 0 : (uint16_t)dice();
        state->handles[place] = k < flow->waiting || !tidy ? (uint32_t)dice() : 0;
    }
}

/* The leap width of the record's table and header. Where the header is far over its limit, the products go round at
 * 2^32, as in a test that forgot the limit. */
static uint32_t widest(const struct plain_record *record)
{
    uint32_t leap = 0;

    for (uint32_t f = 0; f < record->flows; f++) {
        uint32_t share = record->flow[f].share;
        uint32_t cost = (720000 + share - 1) / share;
        uint32_t charge = (uint32_t)record->flow[f].largest + record->header;

        if (leap < charge * cost)
            leap = charge * cost;
    }
    return leap;
}

void make_built(struct state *state)
{
    uint32_t shares[64], largest[64];
    uint32_t flows = make_flows();
    uint64_t most_waiting = one_in(3) ? 64 : spread(3);
    bool tidy = one_in(2), ties = one_in(3);
    struct plain_record *record = &state->record;

    memset(state, 0, sizeof *state);
    make_table(shares, largest, flows);
    record->flows = flows;
    record->header = make_header();
    for (uint32_t f = 0; f < flows; f++) {
        record->flow[f].share = (uint16_t)shares[f];
        record->flow[f].largest = (uint16_t)largest[f];
    }
    record->leap = widest(record);
    record->clock = make_clock();
    record->link = record->clock - spread(record->clock);
    record->turn = make_turn(flows);
    for (uint32_t f = 0; f < flows; f++) {
        struct plain_flow *flow = &record->flow[f];

        flow->first = (uint16_t)spread(63);
        flow->waiting = (uint16_t)spread(most_waiting);
        flow->tag = make_tag(record, flow->waiting > 0);
        if (ties && f > 0 && (flow->waiting > 0) == (record->flow[f - 1].waiting > 0))
            flow->tag = record->flow[f - 1].tag;
        fill_ring(state, f, tidy);
    }
}

void make_blank(struct state *state)
{
    memset(state, 0, sizeof *state);
    if (one_in(2))
        state->record.clock = make_clock();
    if (one_in(2))
        state->record.link = state->record.clock;
    if (one_in(2))
        state->record.turn = spread(63);
}

void make_noise(struct state *state)
{
    uint64_t words[UPLINK_RECORD_WORDS];

    for (size_t i = 0; i < UPLINK_RECORD_WORDS; i++)
        words[i] = dice() >> below(64);
    if (one_in(2))
        words[0] = make_flows() | (uint64_t)make_header() << 16 | dice() << 32;
    from_words(&state->record, words);
    for (size_t i = 0; i < UPLINK_PLACES; i++) {
        uint64_t noise = dice();

        state->lengths[i] = (uint16_t)noise;
        state->handles[i] = (uint32_t)(noise >> 32);
    }
}

/* Where the table is still one that could be opened, half the time the leap width is made to fit it and the header
 * again, so that only the limit that was tried decides. */
static void refit(struct plain_record *record)
{
    if (record->flows > PLAIN_FLOWS)
        return;
    for (uint32_t f = 0; f < record->flows; f++)
        if (record->flow[f].share == 0 || record->flow[f].largest > 1501)
            return;
    if (one_in(2))
        record->leap = widest(record);
}

/* The header past its limit, or another one that fits. */
static void damage_header(struct plain_record *record)
{
    const uint16_t headers[] = {0, 1, 12, 63, 64, 65, 66, 128, 255, 256, 32768, UINT16_MAX,
                                (uint16_t)(record->header - 1), (uint16_t)(record->header + 1)};

    record->header = ONE_OF(headers);
    refit(record);
}

/* The turn past its end, or another one that is as good: the number of flows is no limit to it. */
static void damage_turn(struct plain_record *record)
{
    const uint64_t turns[] = {0, 1, 62, 63, 64, 65, 127, 128, 255, 256, UINT16_MAX, UINT16_MAX + 1, UINT32_MAX,
                              UINT64_C(1) << 32, UINT64_C(1) << 63, UINT64_MAX - 63, UINT64_MAX, record->flows - 1,
                              record->flows, record->flows + 1, record->turn - 1, record->turn + 1, record->turn + 64,
                              record->turn + (UINT64_C(1) << 32), dice()};

    record->turn = ONE_OF(turns);
}

static void damage_head(struct plain_record *record)
{
    const uint16_t flows[] = {0, 1, 64, 65, 128, 256, 32768, UINT16_MAX, (uint16_t)(record->flows - 1),
                              (uint16_t)(record->flows + 1)};
    const uint32_t leaps[] = {record->leap - 1, record->leap + 1, 0, UINT32_MAX, (uint32_t)dice()};
    const uint64_t clocks[] = {TWO62 - 1, TWO62, TWO62 + 1, CLOCK_END - 1, CLOCK_END, CLOCK_END + 1, TWO62 * 2,
                               UINT64_MAX - 1, UINT64_MAX, record->link, record->link - 1, record->clock - 1,
                               record->clock + 1, UINT64_MAX - spread(4000000000)};
    const uint64_t links[] = {0, record->clock - 1, record->clock, record->clock + 1, TWO62, UINT64_MAX, dice()};

    switch (below(10)) {
    case 0: record->flows = ONE_OF(flows); break;
    case 1: record->leap = ONE_OF(leaps); break;
    case 2: record->clock = ONE_OF(clocks); break;
    case 3: record->link = ONE_OF(links); break;
    case 4: case 5: damage_header(record); break;
    case 6: case 7: case 8: damage_turn(record); break;
    default: /* the clock with all that hangs on it */
        record->clock = ONE_OF(clocks);
        record->link = ONE_OF(links);
        for (uint32_t f = 0; f < PLAIN_FLOWS; f++)
            if (record->flow[f].share > 0)
                record->flow[f].tag = record->clock + spread(2 * (uint64_t)record->leap);
        break;
    }
}

static void damage_flow(struct plain_record *record, struct plain_flow *flow)
{
    const uint16_t shares[] = {0, 1, 1000, 1001, UINT16_MAX, flow->share - 1, flow->share + 1};
    const uint16_t largest[] = {0, 1, 1500, 1501, UINT16_MAX, flow->largest - 1, flow->largest + 1};
    const uint16_t firsts[] = {0, 1, 62, 63, 64, 65, UINT16_MAX};
    const uint16_t waiting[] = {0, 1, 63, 64, 65, 128, UINT16_MAX, flow->waiting - 1, flow->waiting + 1};
    const uint64_t clock = record->clock, leap = record->leap;
    const uint64_t tags[] = {0, clock - 1, clock, clock + 2 * leap, clock + 2 * leap + 1, clock + 3 * leap,
                             clock + 3 * leap + 1, UINT64_MAX, dice()};

    switch (below(6)) {
    case 0: flow->share = ONE_OF(shares); refit(record); break;
    case 1: flow->largest = ONE_OF(largest); refit(record); break;
    case 2: flow->first = ONE_OF(firsts); break;
    case 3: flow->waiting = ONE_OF(waiting); break;
    default: flow->tag = ONE_OF(tags); break;
    }
}

/* A length at the front or the end of what waits, or just beyond it on either side. */
static void damage_length(struct state *state, uint32_t f)
{
    const struct plain_flow *flow = &state->record.flow[f];
    const uint32_t ks[] = {0, flow->waiting - 1u, flow->waiting, flow->waiting + 1u, 63, (uint32_t)below(64)};
    const uint16_t values[] = {0, 1, flow->largest, flow->largest + 1, 1500, 1501, 32768, UINT16_MAX};

    state->lengths[64 * f + (flow->first + ONE_OF(ks)) % 64] = ONE_OF(values);
}

/* A field of a flow beyond the number of flows. */
static void damage_beyond(struct plain_record *record)
{
    struct plain_flow *flow;

    if (record->flows >= PLAIN_FLOWS)
        return;
    flow = &record->flow[record->flows + spread(PLAIN_FLOWS - 1 - record->flows)];
    switch (below(5)) {
    case 0: flow->share = 1; break;
    case 1: flow->largest = 1; break;
    case 2: flow->first = 1; break;
    case 3: flow->waiting = 1; break;
    default: flow->tag = 1; break;
    }
}

static void damage_word(struct plain_record *record)
{
    uint64_t words[UPLINK_RECORD_WORDS];
    uint64_t *word = &words[one_in(4) ? below(3) : below(UPLINK_RECORD_WORDS)];

    to_words(record, words);
    *word = one_in(2) ? dice() : *word ^ UINT64_C(1) << below(64);
    from_words(record, words);
}

void damage(struct state *state)
{
    struct plain_record *record = &state->record;
    uint32_t f = record->flows >= 1 && record->flows <= 64 ? (uint32_t)spread(record->flows - 1) : (uint32_t)below(64);

    switch (below(10)) {
    case 0: case 1: damage_head(record); break;
    case 2: case 3: case 4: case 5: damage_flow(record, &record->flow[f]); break;
    case 6: case 7: damage_length(state, f); break;
    case 8: damage_beyond(record); break;
    default: damage_word(record); break;
    }
}
