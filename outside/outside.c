/* The library's four calls, compared with the plain C implementation of documents 01 and 02.
 *
 *     outside CALLS SEED
 *
 * Good scripts, states built at the limits, damaged states, blank ones and noise, with good and bad arguments and loans
 * of wrong lengths. After each call the answer, every word of the block, every place of both memories, every word of
 * the reply and guards around all of them are compared; after a refused opening the block has to be all zeros, and
 * after any other refused call nothing may have changed. Stops at the first difference. In a million calls or more,
 * each answer, each of a depth's, a leap, an opening refused for its header alone, a pick that the turn decided and a
 * call refused for the turn alone have to come up a thousand times; in fewer calls, once in a thousand. */
#include <inttypes.h>
#include <signal.h>
#include <stdio.h>
#include <stdlib.h>
#include <unistd.h>

#include "call.h"
#include "dice.h"

#define ANSWERS (UPLINK_REFUSED_REPLY + 1)

static uint64_t wanted, compared, seed;
static uint64_t counts[CALL_KINDS][ANSWERS];
static uint64_t leaps, headers_refused, turned, turns_refused;
static struct state state;

static bool more(void)
{
    return compared < wanted;
}

/* True where it is the header alone that made an opening answer 3: its lists are of one length, 1 to 64. */
static bool refused_for_header(const struct call *call, uint32_t answer)
{
    return call->kind == OPENING && answer == UPLINK_REFUSED_LISTS && call->shares_count == call->largest_count
        && call->shares_count >= 1 && call->shares_count <= PLAIN_FLOWS;
}

/* True where it is the turn alone that made an arrival or a pick answer 2: with a turn of 0 it would not have. The call
 * was refused, so the state is the one that was given. */
static bool refused_for_turn(const struct call *call, uint32_t answer)
{
    static struct state other;
    struct plain_reply reply;

    if (answer != UPLINK_REFUSED_FORM || state.record.turn < PLAIN_FLOWS)
        return false;
    other = state;
    other.record.turn = 0;
    if (call->kind == ARRIVAL)
        return plain_arrival(call->flow, call->length, call->handle, &other.record, other.lengths, UPLINK_PLACES,
                             other.handles, UPLINK_PLACES) != PLAIN_BAD_FORM;
    return plain_pick(&other.record, other.lengths, UPLINK_PLACES, other.handles, UPLINK_PLACES, &reply)
        != PLAIN_BAD_FORM;
}

/* Makes the call and counts its answer; ends the run at a difference. */
static uint32_t try_call(const struct call *call)
{
    struct outcome outcome;

    if (!call_agrees(call, &state, &outcome)) {
        printf("call %" PRIu64 " of seed %" PRIu64 " differs\n", compared + 1, seed);
        exit(1);
    }
    compared++;
    counts[call->kind][outcome.answer]++;
    leaps += outcome.leapt;
    turned += outcome.turned;
    headers_refused += refused_for_header(call, outcome.answer);
    turns_refused += refused_for_turn(call, outcome.answer);
    if (compared % (wanted < 10 ? 1 : wanted / 10) == 0) {
        printf("%" PRIu64 " of %" PRIu64 " calls agree\n", compared, wanted);
        fflush(stdout);
    }
    return outcome.answer;
}

/* A length that is not `right`, on either side of it, or `right` itself with a 33rd bit set. */
static size_t wrong_count(size_t right)
{
    const size_t list[] = {0, 1, right / 2, right - 1, right + 1, right * 2, right + ((size_t)1 << 32)};

    return ONE_OF(list);
}

static void spoil_lengths(struct call *call)
{
    switch (below(4)) {
    case 0: call->record_words = wrong_count(UPLINK_RECORD_WORDS); break;
    case 1: call->lengths_places = wrong_count(UPLINK_PLACES); break;
    case 2: call->handles_places = wrong_count(UPLINK_PLACES); break;
    default: call->reply_words = wrong_count(reply_words_of(call->kind)); break;
    }
}

/* A call of this kind whose loans have the right lengths, but for a few: a depth has fewer loans to spoil. */
static struct call new_call(enum call_kind kind)
{
    struct call call = {.kind = kind, .record_words = UPLINK_RECORD_WORDS, .lengths_places = UPLINK_PLACES,
                        .handles_places = UPLINK_PLACES, .reply_words = reply_words_of(kind)};

    if (one_in(kind == DEPTH ? 10 : 40)) {
        spoil_lengths(&call);
        if (one_in(4))
            spoil_lengths(&call);
    }
    return call;
}

static uint32_t try_arrival(uint32_t flow, uint32_t length)
{
    static const uint32_t handles[] = {0, 1, UINT32_MAX};
    struct call call = new_call(ARRIVAL);

    call.flow = flow;
    call.length = length;
    call.handle = one_in(4) ? ONE_OF(handles) : (uint32_t)dice();
    return try_call(&call);
}

static uint32_t try_pick(void)
{
    struct call call = new_call(PICK);

    return try_call(&call);
}

/* Some flow: mostly one that is there. */
static uint32_t any_flow(void)
{
    uint32_t flows = state.record.flows;
    const uint32_t bad_flows[] = {flows, flows + 1, 63, 64, 65, 65536, UINT32_MAX};

    return one_in(12) || flows == 0 ? ONE_OF(bad_flows) : (uint32_t)spread(flows - 1);
}

static uint32_t try_depth(void)
{
    struct call call = new_call(DEPTH);

    call.flow = any_flow();
    return try_call(&call);
}

/* An arrival at some flow, mostly of a length that fits. */
static uint32_t try_any_arrival(void)
{
    uint32_t flow = any_flow();
    uint32_t most = flow < PLAIN_FLOWS ? state.record.flow[flow].largest : 100;
    const uint32_t bad_lengths[] = {0, most + 1, 1500, 1501, 65536, 65536 + most, UINT32_MAX};

    return try_arrival(flow, one_in(12) || most == 0 ? ONE_OF(bad_lengths) : 1 + (uint32_t)spread(most - 1));
}

static uint32_t try_any(void)
{
    if (one_in(6))
        return try_depth();
    return one_in(2) ? try_any_arrival() : try_pick();
}

static struct call good_opening(void)
{
    struct call call = new_call(OPENING);
    uint32_t flows = make_flows();

    make_table(call.shares, call.largest, flows);
    call.shares_count = flows;
    call.largest_count = flows;
    call.header = make_header();
    return call;
}

static void spoil_table(struct call *call)
{
    static const uint32_t shares[] = {0, 1001, 65536, 65537, UINT32_MAX};
    static const uint32_t largest[] = {0, 1501, 65536, 65537, UINT32_MAX};
    const uint32_t headers[] = {65, 66, 128, 256, 65536, 65536 + call->header, UINT32_MAX};
    const size_t rows[] = {0, 1, 63, 64, 65, 66, call->shares_count + ((size_t)1 << 32)};
    size_t row = spread(call->shares_count < 1 || call->shares_count > 64 ? 63 : call->shares_count - 1);

    switch (below(8)) {
    case 0: call->shares[row] = ONE_OF(shares); break;
    case 1: call->largest[row] = ONE_OF(largest); break;
    case 2: call->shares[row] += (uint32_t)spread(1000); break;
    case 3: call->shares[row]++; break;
    case 4: call->shares_count = ONE_OF(rows); break;
    case 5: call->largest_count = ONE_OF(rows); break;
    case 6: call->header = ONE_OF(headers); break;
    default:
        call->shares_count = ONE_OF(rows);
        call->largest_count = call->shares_count;
        break;
    }
}

/* Openings over whatever the state is, good and bad. */
static void run_openings(void)
{
    for (uint64_t left = 1 + below(20); left > 0 && more(); left--) {
        struct call call = good_opening();

        if (!one_in(4))
            spoil_table(&call);
        if (one_in(6))
            spoil_table(&call);
        try_call(&call);
    }
}

/* A good script: an opening, then arrivals and picks in turns of changing weight, sometimes at one flow alone. */
static void run_script(void)
{
    struct call call = good_opening();

    try_call(&call);
    for (uint64_t turns = 1 + below(8); turns > 0; turns--) {
        uint64_t weight = spread(8);
        uint32_t favoured = (uint32_t)below(64);
        bool alone = one_in(3);

        for (uint64_t left = below(150); left > 0 && more(); left--) {
            uint32_t flows = state.record.flows;

            if (one_in(10))
                try_depth();
            else if (below(8) >= weight)
                try_pick();
            else if (alone && flows > 0)
                try_arrival(favoured % flows, 1 + (uint32_t)spread(state.record.flow[favoured % flows].largest - 1u));
            else
                try_any_arrival();
        }
    }
}

/* A few calls on from a state built at the limits. */
static void run_built(void)
{
    make_built(&state);
    for (uint64_t left = 1 + below(12); left > 0 && more(); left--)
        try_any();
}

/* Damage after damage to one good state, a call or a few after each. */
static void run_damaged(void)
{
    static struct state good;

    if (!one_in(3))
        make_built(&state);
    good = state;
    for (uint64_t left = 1 + below(12); left > 0 && more(); left--) {
        state = good;
        damage(&state);
        if (one_in(8))
            damage(&state);
        while (try_any() != UPLINK_REFUSED_FORM && more() && !one_in(3))
            ;
    }
    state = good;
}

static void run_noise(void)
{
    if (one_in(4))
        make_blank(&state);
    else
        make_noise(&state);
    for (uint64_t left = 1 + below(3); left > 0 && more(); left--)
        try_any();
}

static void run_all(void)
{
    while (more()) {
        switch (below(16)) {
        case 0: run_noise(); break;
        case 1: case 2: case 3: run_openings(); break;
        case 4: run_script(); break;
        case 5: case 6: case 7: case 8: case 9: run_built(); break;
        default: run_damaged(); break;
        }
    }
}

static uint64_t count(uint32_t answer)
{
    return counts[OPENING][answer] + counts[ARRIVAL][answer] + counts[PICK][answer] + counts[DEPTH][answer];
}

/* True where each answer of a depth came up often enough: other calls give the same ones. */
static bool enough_depths(uint64_t needed)
{
    const uint64_t *depths = counts[DEPTH];

    return depths[UPLINK_DONE] >= needed && depths[UPLINK_REFUSED_FLOW] >= needed
        && depths[UPLINK_REFUSED_RECORD] >= needed && depths[UPLINK_REFUSED_REPLY] >= needed;
}

/* True where every answer, leaps, turns that decided, and headers and turns that were refused came up often enough. */
static bool report(void)
{
    static const uint32_t answers[] = {0, 1, 2, 3, 4, 5, 6, 7, 8, 9, 10, UPLINK_IDLE, 101, 102};
    uint64_t needed = wanted < 1000000 ? wanted / 1000 : 1000;
    bool enough = leaps >= needed && turned >= needed && headers_refused >= needed && turns_refused >= needed
        && enough_depths(needed);

    printf("%8s %10s %10s %10s %10s %10s\n", "answer", "opening", "arrival", "pick", "depth", "all");
    for (size_t i = 0; i < sizeof answers / sizeof *answers; i++) {
        uint32_t answer = answers[i];

        printf("%8" PRIu32 " %10" PRIu64 " %10" PRIu64 " %10" PRIu64 " %10" PRIu64 " %10" PRIu64 "\n", answer,
               counts[OPENING][answer], counts[ARRIVAL][answer], counts[PICK][answer], counts[DEPTH][answer],
               count(answer));
        enough = enough && count(answer) >= needed;
    }
    printf("%8s %10s %10s %10" PRIu64 "\n", "leaps", "", "", leaps);
    printf("%8s %10s %10s %10" PRIu64 "   of equal tags not the lowest number\n", "turned", "", "", turned);
    printf("%8s %10" PRIu64 "   refused for the header alone\n", "headers", headers_refused);
    printf("%8s %10" PRIu64 "   refused for the turn alone\n", "turns", turns_refused);
    if (!enough)
        printf("an answer, a leap, a turn that decided, or a header or turn refused came up fewer than %" PRIu64
               " times\n", needed);
    return enough;
}

static void crashed(int signal_number)
{
    static char text[100];
    int length = snprintf(text, sizeof text, "call %" PRIu64 " of seed %" PRIu64 " crashed: signal %d\n",
                          compared + 1, seed, signal_number);

    if (write(STDOUT_FILENO, text, (size_t)length) < 0)
        _exit(3);
    _exit(1);
}

int main(int count_of_words, char **words)
{
    if (count_of_words != 3) {
        fprintf(stderr, "usage: outside CALLS SEED\n");
        return 2;
    }
    wanted = strtoull(words[1], NULL, 10);
    seed = strtoull(words[2], NULL, 10);
    signal(SIGSEGV, crashed);
    signal(SIGBUS, crashed);
    signal(SIGILL, crashed);
    dice_seed(seed);
    call_prepare();
    run_all();
    if (!report())
        return 1;
    printf("%" PRIu64 " calls compared, all agree; seed %" PRIu64 "\n", compared, seed);
    return 0;
}
