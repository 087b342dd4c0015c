#include "call.h"

#include <inttypes.h>
#include <stdio.h>
#include <string.h>

#include "dice.h"
#include "loan.h"

static struct loan shares, largest, record, lengths, handles, reply;

void call_prepare(void)
{
    loan_make(&shares, "share", sizeof(uint32_t), CALL_ROWS);
    loan_make(&largest, "largest packet", sizeof(uint32_t), CALL_ROWS);
    loan_make(&record, "record word", sizeof(uint64_t), 2 * UPLINK_RECORD_WORDS);
    loan_make(&lengths, "length at place", sizeof(uint16_t), 2 * UPLINK_PLACES);
    loan_make(&handles, "handle at place", sizeof(uint32_t), 2 * UPLINK_PLACES);
    loan_make(&reply, "reply word", sizeof(uint64_t), 2 * UPLINK_REPLY_WORDS);
}

size_t reply_words_of(enum call_kind kind)
{
    return kind == DEPTH ? UPLINK_DEPTH_WORDS : UPLINK_REPLY_WORDS;
}

/* What the library answers to the call, on loans that begin as `state` and `reply_given` say. */
static uint64_t library_answer(const struct call *call, const struct state *state, const uint64_t *reply_given)
{
    uint64_t words[UPLINK_RECORD_WORDS];
    uint64_t *record_at;
    uint16_t *lengths_at;
    uint32_t *handles_at;

    to_words(&state->record, words);
    record_at = lend(&record, call->record_words, words, UPLINK_RECORD_WORDS);
    if (call->kind == DEPTH)
        return uplink_depth(call->flow, record_at, call->record_words,
                             lend(&reply, call->reply_words, reply_given, UPLINK_DEPTH_WORDS), call->reply_words);
    lengths_at = lend(&lengths, call->lengths_places, state->lengths, UPLINK_PLACES);
    handles_at = lend(&handles, call->handles_places, state->handles, UPLINK_PLACES);
    if (call->kind == OPENING) {
        const uint32_t *shares_at = lend(&shares, call->shares_count, call->shares, CALL_ROWS);
        const uint32_t *largest_at = lend(&largest, call->largest_count, call->largest, CALL_ROWS);

        return uplink_opening(shares_at, call->shares_count, largest_at, call->largest_count, call->header,
                               record_at, call->record_words, lengths_at, call->lengths_places,
                               handles_at, call->handles_places);
    }
    if (call->kind == ARRIVAL)
        return uplink_arrival(call->flow, call->length, call->handle, record_at, call->record_words,
                               lengths_at, call->lengths_places, handles_at, call->handles_places);
    return uplink_pick(record_at, call->record_words, lengths_at, call->lengths_places,
                        handles_at, call->handles_places,
                        lend(&reply, call->reply_words, reply_given, UPLINK_REPLY_WORDS), call->reply_words);
}

static uint64_t plain_pick_answer(const struct call *call, struct state *state, uint64_t *words)
{
    struct plain_reply told;
    enum plain_answer answer;

    if (call->reply_words != UPLINK_REPLY_WORDS)
        return UPLINK_REFUSED_REPLY;
    answer = plain_pick(&state->record, state->lengths, call->lengths_places, state->handles, call->handles_places,
                        &told);
    if (answer == PLAIN_DONE) {
        words[0] = told.flow;
        words[1] = told.length;
        words[2] = told.handle;
        words[3] = told.tag;
        words[4] = told.leapt;
        words[5] = told.clock;
    }
    return answer;
}

static uint64_t plain_depth_answer(const struct call *call, const struct state *state, uint64_t *words)
{
    struct plain_flow flow;
    enum plain_answer answer;

    if (call->reply_words != UPLINK_DEPTH_WORDS)
        return UPLINK_REFUSED_REPLY;
    answer = plain_depth(call->flow, &state->record, &flow);
    if (answer == PLAIN_DONE) {
        words[0] = flow.waiting;
        words[1] = flow.share;
        words[2] = flow.largest;
        words[3] = flow.tag;
    }
    return answer;
}

/* What the call has to answer; `state` and the reply's words become what they have to be. */
static uint64_t plain_answer(const struct call *call, struct state *state, uint64_t *words)
{
    uint32_t at;
    uint64_t answer;

    if (call->record_words != UPLINK_RECORD_WORDS)
        return UPLINK_REFUSED_RECORD;
    if (call->kind == OPENING) {
        answer = plain_opening(call->shares, call->shares_count, call->largest, call->largest_count, call->header,
                               &state->record, state->lengths, call->lengths_places,
                               state->handles, call->handles_places, &at);
        return answer | (uint64_t)at << 32;
    }
    if (call->kind == ARRIVAL)
        return plain_arrival(call->flow, call->length, call->handle, &state->record,
                             state->lengths, call->lengths_places, state->handles, call->handles_places);
    if (call->kind == DEPTH)
        return plain_depth_answer(call, state, words);
    return plain_pick_answer(call, state, words);
}

/* What a refused call leaves, whatever the plain implementation did: what was given, but for the record of an opening,
 * which is then blank unless it is the record that was refused. */
static void refuse(const struct call *call, const struct state *given, uint32_t answer, struct state *state)
{
    *state = *given;
    if (call->kind == OPENING && answer != UPLINK_REFUSED_RECORD)
        memset(&state->record, 0, sizeof state->record);
}

static bool loans_hold(const struct call *call, const struct state *state, const uint64_t *reply_words)
{
    uint64_t words[UPLINK_RECORD_WORDS];

    to_words(&state->record, words);
    if (!loan_holds(&record, words))
        return false;
    if (call->kind == DEPTH)
        return loan_holds(&reply, reply_words);
    if (!loan_holds(&lengths, state->lengths) || !loan_holds(&handles, state->handles))
        return false;
    if (call->kind == OPENING)
        return loan_holds(&shares, call->shares) && loan_holds(&largest, call->largest);
    return call->kind == ARRIVAL || loan_holds(&reply, reply_words);
}

static void show_list(const char *name, const uint32_t *list, size_t count)
{
    printf("  %zu %s:", count, name);
    for (size_t i = 0; i < count && i < CALL_ROWS; i++)
        printf(" %" PRIu32, list[i]);
    printf("\n");
}

static void show(const struct call *call)
{
    static const char *names[CALL_KINDS] = {"opening", "arrival", "pick", "depth"};

    printf("  call: %s", names[call->kind]);
    if (call->kind == ARRIVAL || call->kind == DEPTH)
        printf(" at flow %" PRIu32, call->flow);
    if (call->kind == ARRIVAL)
        printf(" of length %" PRIu32 ", handle %" PRIu32, call->length, call->handle);
    printf("; record words %zu", call->record_words);
    if (call->kind != DEPTH)
        printf(", lengths %zu, handles %zu", call->lengths_places, call->handles_places);
    if (call->kind == PICK || call->kind == DEPTH)
        printf(", reply words %zu", call->reply_words);
    printf("\n");
    if (call->kind == OPENING) {
        printf("  header: %" PRIu32 "\n", call->header);
        show_list("shares", call->shares, call->shares_count);
        show_list("largest packets", call->largest, call->largest_count);
    }
}

/* True where a flow of lower number than the one picked waited with its tag, so that the turn has decided. */
static bool has_turned(const struct plain_record *record, const uint64_t *reply_words)
{
    for (size_t f = 0; f < reply_words[0]; f++)
        if (record->flow[f].waiting > 0 && record->flow[f].tag == reply_words[3])
            return true;
    return false;
}

bool call_agrees(const struct call *call, struct state *state, struct outcome *outcome)
{
    static struct state given;
    uint64_t reply_given[UPLINK_REPLY_WORDS], reply_next[UPLINK_REPLY_WORDS];
    uint64_t got, expected;
    bool picked, taken, same;

    for (size_t i = 0; i < UPLINK_REPLY_WORDS; i++)
        reply_next[i] = reply_given[i] = dice();
    given = *state;
    got = library_answer(call, &given, reply_given);
    expected = plain_answer(call, state, reply_next);
    outcome->answer = (uint32_t)expected;
    picked = call->kind == PICK && expected == UPLINK_DONE;
    outcome->leapt = picked && reply_next[4] == 1;
    outcome->turned = picked && has_turned(&given.record, reply_next);
    if (got != expected)
        printf("  answer: expected %" PRIu64 " (flow %" PRIu64 "), got %" PRIu64 " (flow %" PRIu64 ")\n",
               expected & UINT32_MAX, expected >> 32, got & UINT32_MAX, got >> 32);
    taken = outcome->answer == UPLINK_DONE || outcome->answer == UPLINK_IDLE;
    if (!taken)
        refuse(call, &given, outcome->answer, state);
    same = loans_hold(call, state, taken ? reply_next : reply_given);
    if (got == expected && same)
        return true;
    printf("  given: flows %" PRIu32 ", header %" PRIu32 ", leap width %" PRIu32, given.record.flows,
           given.record.header, given.record.leap);
    printf(", clock %" PRIu64 ", link time %" PRIu64 ", turn %" PRIu64 "\n", given.record.clock, given.record.link,
           given.record.turn);
    show(call);
    return false;
}
