/* Arrivals and picks in turn, at a load that stays the same: what is picked comes in again at once.
 *
 *     bench LOAD             writes nanoseconds per arrival and per pick, each the best of several runs
 *     bench LOAD ROUNDS      makes ROUNDS picks and arrivals and writes nothing: for counting instructions
 *     bench LOAD ROUNDS leap|still    the same, with the tags set before each pick so that it leaps, or does not
 *
 * The buffers are warm: they are filled once and stay in the cache from call to call. */
#define _POSIX_C_SOURCE 200809L
#include <stdbool.h>
#include <stdio.h>
#include <stdlib.h>
#include <string.h>
#include <time.h>

#include "side.h"

#define RUNS 200
#define MOST_COPIES 16
#define MOST_CALLS 64

struct load {
    const char *name;
    uint32_t flows;
    uint32_t first_share, first_largest; /* of flow 0 */
    uint32_t share, largest;             /* of every other flow */
    uint32_t header;                     /* bytes; read at run time, so that no code is compiled for one header */
    uint32_t waiting, waiting_spread;    /* flow f has waiting + f mod waiting_spread packets */
    unsigned copies, turns; /* picks in a row, then arrivals, between two readings of the time: turns on each copy */
    unsigned rounds;
};

static const struct load loads[] = {
    {"two", 2, 500, 1500, 500, 1500, 0, 3, 1, MOST_COPIES, 1, 600},
    {"camera", 61, 400, 1500, 10, 200, 0, 1, 8, 1, 16, 200},
    {"full", 64, 15, 1500, 15, 1500, 0, 64, 1, 1, MOST_CALLS, 5},
};

static struct side sides[MOST_COPIES];
static side_reply replies[MOST_CALLS];

static void must(bool held)
{
    if (!held) {
        fprintf(stderr, "bench: a call was refused\n");
        exit(1);
    }
}

static void fill(const struct load *load, struct side *side)
{
    uint32_t shares[PLAIN_FLOWS], largest[PLAIN_FLOWS];
    uint32_t number = 1;

    for (uint32_t f = 0; f < load->flows; f++) {
        shares[f] = f == 0 ? load->first_share : load->share;
        largest[f] = f == 0 ? load->first_largest : load->largest;
    }
    must(side_opening(side, shares, largest, load->flows, load->header) == 0);
    for (uint32_t f = 0; f < load->flows; f++) {
        for (uint32_t k = 0; k < load->waiting + f % load->waiting_spread; k++) {
            number = number * 1664525 + 1013904223;
            must(side_arrival(side, f, 1 + (number >> 8) % largest[f], number) == 0);
        }
    }
}

/* These two are apart from the rest, so that callgrind can count what happens inside them and nothing else. */
__attribute__((noinline)) static uint32_t pick_all(unsigned copies, unsigned turns)
{
    uint32_t answers = 0;

    for (unsigned i = 0; i < copies * turns; i++)
        answers |= side_pick(&sides[i / turns], replies[i]);
    return answers;
}

__attribute__((noinline)) static uint32_t arrive_all(unsigned copies, unsigned turns)
{
    uint32_t answers = 0;

    for (unsigned i = 0; i < copies * turns; i++)
        answers |= side_arrival(&sides[i / turns], REPLY_FLOW(replies[i]), REPLY_LENGTH(replies[i]),
                                REPLY_HANDLE(replies[i]));
    return answers;
}

static double now(void)
{
    struct timespec time;

    clock_gettime(CLOCK_MONOTONIC, &time);
    return (double)time.tv_sec * 1e9 + (double)time.tv_nsec;
}

/* What reading the time costs, at best: it is taken off again. */
static double reading_cost(void)
{
    double best = 1e18;

    for (int run = 0; run < RUNS; run++) {
        double start = now(), end = start;

        for (int i = 0; i < 1000; i++)
            end = now();
        best = (end - start) / 1000 < best ? (end - start) / 1000 : best;
    }
    return best;
}

static void run_timed(const struct load *load, double reading, double *arrival, double *pick)
{
    double calls = (double)load->copies * load->turns * load->rounds;
    double picks = 0, arrivals = 0;

    for (unsigned round = 0; round < load->rounds; round++) {
        double start = now(), middle, end;

        must(pick_all(load->copies, load->turns) == 0);
        middle = now();
        must(arrive_all(load->copies, load->turns) == 0);
        end = now();
        picks += middle - start - reading;
        arrivals += end - middle - reading;
    }
    *arrival = arrivals / calls;
    *pick = picks / calls;
}

static void write_best(const struct load *load)
{
    double reading = reading_cost();
    double best_arrival = 1e18, best_pick = 1e18;

    for (unsigned i = 0; i < load->copies; i++)
        fill(load, &sides[i]);
    for (int run = 0; run < RUNS; run++) {
        double arrival, pick;

        run_timed(load, reading, &arrival, &pick);
        best_arrival = arrival < best_arrival ? arrival : best_arrival;
        best_pick = pick < best_pick ? pick : best_pick;
    }
    printf("%.0f %.0f\n", best_arrival, best_pick);
}

/* tags is NULL, or says how to set them before each pick */
static void run_counted(const struct load *load, long rounds, const char *tags)
{
    fill(load, &sides[0]);
    for (long round = 0; round < rounds; round++) {
        if (tags != NULL)
            side_set_tags(&sides[0], load->flows, strcmp(tags, "leap") == 0);
        must(pick_all(1, 1) == 0);
        if (tags != NULL && REPLY_LEAPT(replies[0]) != (strcmp(tags, "leap") == 0)) {
            fprintf(stderr, "bench: a pick leapt, or did not, against its tags\n");
            exit(1);
        }
        must(arrive_all(1, 1) == 0);
    }
}

int main(int count_of_words, char **words)
{
    for (size_t i = 0; count_of_words >= 2 && i < sizeof loads / sizeof *loads; i++) {
        if (strcmp(words[1], loads[i].name) != 0)
            continue;
        if (count_of_words == 2)
            write_best(&loads[i]);
        else
            run_counted(&loads[i], atol(words[2]), count_of_words > 3 ? words[3] : NULL);
        return 0;
    }
    fprintf(stderr, "usage: bench two|camera|full [ROUNDS [leap|still]]\n");
    return 2;
}
