/* Writing and reading a full block of the log card: the proved library or the plain C beside it.
 *
 *     card ours|plain            writes nanoseconds per writing and per reading, each the best of several runs
 *     card ours|plain ROUNDS     makes ROUNDS of each and writes nothing: for counting instructions
 *
 * First both are compared on many contents and blocks, good ones and others; where they differ, the program stops. */
#define _POSIX_C_SOURCE 200809L
#include <stdbool.h>
#include <stdio.h>
#include <stdlib.h>
#include <string.h>
#include <time.h>

#include "../include/card.h"
#include "card_plain.h"

#define RUNS 200
#define TIMED 500 /* calls between two readings of the time */
#define COMPARED 20000

typedef uint32_t writer(const uint64_t *content, size_t content_words, uint8_t *block, size_t block_bytes);
typedef uint32_t reader(const uint8_t *block, size_t block_bytes, uint64_t *content, size_t content_words);

static uint64_t content[CARD_CONTENT_WORDS], found[CARD_CONTENT_WORDS], beside[CARD_CONTENT_WORDS];
static uint8_t block[CARD_BLOCK_BYTES], other[CARD_BLOCK_BYTES];
static uint64_t state = 1;

static void must(bool held, const char *otherwise)
{
    if (!held) {
        fprintf(stderr, "card: %s\n", otherwise);
        exit(1);
    }
}

/* A number below `below`. */
static uint64_t dice(uint64_t below)
{
    state = state * 6364136223846793005u + 1442695040888963407u;
    return (state >> 33) % below;
}

/* A content of so many entries, within the rules. */
static void fill(uint64_t count)
{
    memset(content, 0, sizeof content);
    content[0] = dice((uint64_t)1 << 31);
    content[1] = count;
    for (uint64_t k = 0; k < count; k++) {
        uint64_t *entry = content + 2 + 5 * k;

        entry[0] = 1 + dice(3);
        entry[1] = dice(64);
        entry[2] = 1 + dice(1500);
        entry[3] = dice((uint64_t)1 << 31) << 1;
        entry[4] = dice((uint64_t)1 << 31) << 31;
    }
}

/* Both sides on one content and on one block, which are damaged in most turns. */
static void compare_one(void)
{
    fill(1 + dice(CARD_ENTRIES));
    if (dice(2) == 0)
        content[dice(CARD_CONTENT_WORDS)] = dice(2) == 0 ? dice(2000) : dice((uint64_t)1 << 31) << 2;
    must(card_write(content, CARD_CONTENT_WORDS, block, CARD_BLOCK_BYTES)
             == plain_card_write(content, CARD_CONTENT_WORDS, other, CARD_BLOCK_BYTES),
         "two writings differ in their answer");
    must(memcmp(block, other, sizeof block) == 0, "two writings differ");
    if (dice(2) == 0)
        other[dice(CARD_BLOCK_BYTES)] = (uint8_t)dice(256);
    must(card_read(other, CARD_BLOCK_BYTES, found, CARD_CONTENT_WORDS)
             == plain_card_read(other, CARD_BLOCK_BYTES, beside, CARD_CONTENT_WORDS),
         "two readings differ in their answer");
    must(memcmp(found, beside, sizeof found) == 0, "two readings differ");
    memcpy(other, block, sizeof other);
}

/* These two are apart from the rest, so that callgrind can count what happens inside them and nothing else. */
__attribute__((noinline)) static uint32_t write_all(writer *call, long rounds)
{
    uint32_t answers = 0;

    for (long i = 0; i < rounds; i++)
        answers |= call(content, CARD_CONTENT_WORDS, block, CARD_BLOCK_BYTES);
    return answers;
}

__attribute__((noinline)) static uint32_t read_all(reader *call, long rounds)
{
    uint32_t answers = 0;

    for (long i = 0; i < rounds; i++)
        answers |= call(block, CARD_BLOCK_BYTES, found, CARD_CONTENT_WORDS);
    return answers;
}

static double now(void)
{
    struct timespec time;

    clock_gettime(CLOCK_MONOTONIC, &time);
    return (double)time.tv_sec * 1e9 + (double)time.tv_nsec;
}

static void write_best(writer *write, reader *read)
{
    double best_write = 1e18, best_read = 1e18;

    for (int run = 0; run < RUNS; run++) {
        double start = now(), middle, end;

        must(write_all(write, TIMED) == 0, "a writing was refused");
        middle = now();
        must(read_all(read, TIMED) == 0, "a reading was refused");
        end = now();
        best_write = middle - start < best_write ? middle - start : best_write;
        best_read = end - middle < best_read ? end - middle : best_read;
    }
    printf("%.0f %.0f\n", best_write / TIMED, best_read / TIMED);
}

int main(int count_of_words, char **words)
{
    bool ours = count_of_words >= 2 && strcmp(words[1], "ours") == 0;
    writer *write = ours ? card_write : plain_card_write;
    reader *read = ours ? card_read : plain_card_read;

    if (count_of_words < 2 || (!ours && strcmp(words[1], "plain") != 0)) {
        fprintf(stderr, "usage: card ours|plain [ROUNDS]\n");
        return 2;
    }
    for (int i = 0; i < COMPARED; i++)
        compare_one();
    fill(CARD_ENTRIES);
    if (count_of_words == 2) {
        write_best(write, read);
    } else {
        must(write_all(write, atol(words[2])) == 0, "a writing was refused");
        must(read_all(read, atol(words[2])) == 0, "a reading was refused");
    }
    return 0;
}
