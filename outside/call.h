/* One call, made both of the library and of the plain C implementation, and compared. */
#ifndef CALL_H
#define CALL_H

#include <stdbool.h>
#include <stddef.h>
#include <stdint.h>

#include "state.h"

#define CALL_ROWS 66

enum call_kind { OPENING, ARRIVAL, PICK, DEPTH };

#define CALL_KINDS (DEPTH + 1)

struct call {
    enum call_kind kind;
    uint32_t flow;                                        /* arrival, depth */
    uint32_t length, handle;                              /* arrival */
    uint32_t shares[CALL_ROWS], largest[CALL_ROWS];       /* opening */
    size_t shares_count, largest_count;
    uint32_t header;                                      /* opening; bytes */
    size_t record_words;                                  /* all */
    size_t lengths_places, handles_places;                /* all but depth */
    size_t reply_words;                                   /* pick, depth */
};

struct outcome {
    uint32_t answer;
    bool leapt;
    bool turned; /* a packet was picked, though a flow of lower number waited with the same tag */
};

void call_prepare(void);

/* The words of a reply to this kind of call. */
size_t reply_words_of(enum call_kind kind);

/* Makes the call. True where the answer, the record, both memories, the reply, the lists and all guards are as they
 * have to be; `state` is then the next one. Otherwise says what differs first. */
bool call_agrees(const struct call *call, struct state *state, struct outcome *outcome);

#endif
