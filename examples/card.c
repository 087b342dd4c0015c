/* A block for the log card: five calls of the scheduler are written into 512 bytes, read back and printed. Then what
 * the reader and the writer say to a damaged byte and to a length outside the rules.
 *
 * Build and run, in the repository's folder, once `tools/library` has made the library:
 *   gcc -O2 -Iinclude examples/card.c target/library/libcard.a -o target/card && target/card
 */
#include <inttypes.h>
#include <stdio.h>
#include <stdlib.h>
#include "card.h"

/* Two packets of 100 bytes come, each to its own flow of share 500, and are sent; then nothing waits. */
static const struct card_entry calls[] = {
    {CARD_ARRIVAL, 0, 100, 7, 0},
    {CARD_ARRIVAL, 1, 100, 8, 0},
    {CARD_PICK, 0, 100, 7, 72000},
    {CARD_PICK, 1, 100, 8, 144000},
    {CARD_IDLE, 0, 0, 0, 0},
};
enum { CALLS = sizeof calls / sizeof calls[0] };

/* All that is not set here is 0: the unused entries. */
static struct card_block written, found;
static uint8_t block[CARD_BLOCK_BYTES];

/* A call that should have been done was refused: the number says why. */
static void must(const char *call, uint32_t answer)
{
    if (answer == CARD_DONE)
        return;
    fprintf(stderr, "%s refused: %" PRIu32 "\n", call, answer);
    exit(1);
}

static void show(const struct card_entry *entry)
{
    static const char *const names[] = {"unused", "arrival", "pick", "leap", "idle"};

    printf("%-7s flow %2" PRIu64 ", length %4" PRIu64 ", handle %10" PRIu64 ", clock %" PRIu64 "\n", names[entry->kind],
           entry->flow, entry->length, entry->handle, entry->clock);
}

int main(void)
{
    written.number = 258;
    written.count = CALLS;
    for (int k = 0; k < CALLS; k++)
        written.entries[k] = calls[k];
    must("writing", card_write_block(&written, block, sizeof block));
    must("reading", card_read_block(block, sizeof block, &found));
    printf("block %" PRIu64 ", %" PRIu64 " entries\n", found.number, found.count);
    for (uint64_t k = 0; k < found.count; k++)
        show(&found.entries[k]);
    printf("number and count on the card: %d %d %d %d %d\n", block[0], block[1], block[2], block[3], block[4]);

    block[100] ^= 1;
    printf("one byte damaged: refused with %" PRIu32 "\n", card_read_block(block, sizeof block, &found));
    printf("one byte short: refused with %" PRIu32 "\n", card_read_block(block, sizeof block - 1, &found));
    written.entries[0].length = 1501;
    printf("a length of 1501: refused with %" PRIu32 "\n", card_write_block(&written, block, sizeof block));
    return 0;
}
