/* The record and the two memories, and ways to make them: good ones, damaged ones, and noise. */
#ifndef STATE_H
#define STATE_H

#include <stdint.h>

#include "../bench/plain.h"
#include "../include/uplink.h"

struct state {
    struct plain_record record;
    uint16_t lengths[UPLINK_PLACES];
    uint32_t handles[UPLINK_PLACES];
};

/* The block's layout: word 0 is flows + 2^16 header + 2^32 leap width, word 1 the clock, word 2 the link time; words 3
 * to 66 are the tags; then 16 words each for shares, largest packets, firsts and numbers waiting, four flows to a
 * word; word 131 is the turn. Flows and header are below 2^16 in every record here. */
void to_words(const struct plain_record *record, uint64_t words[UPLINK_RECORD_WORDS]);
void from_words(struct plain_record *record, const uint64_t words[UPLINK_RECORD_WORDS]);

/* A table of `flows` rows, and a header in bytes, that an opening takes. */
void make_table(uint32_t *shares, uint32_t *largest, uint32_t flows);
uint32_t make_flows(void);
uint32_t make_header(void);

void make_built(struct state *state);  /* well formed, with many fields at their limits */
void make_blank(struct state *state);  /* no flow at all: zeros, but for the clocks and the turn */
void make_noise(struct state *state);  /* any words at all */
void damage(struct state *state);      /* one field or word is set to, or past, a limit */

#endif
