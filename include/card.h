/* The log card: calls of the scheduler in blocks of 512 bytes, each with its own number and two sums.
 *
 * A block holds 1 to 31 entries, one for each arrival or pick that was done, in order; openings and refused calls are
 * not logged. On the card, numbers are little-endian:
 *   bytes 0 to 3      the block's number
 *   byte 4            how many entries are used, 1 to 31
 *   bytes 5 to 11     zeros
 *   bytes 12 to 507   31 entries of 16 bytes: kind, flow, length (2), handle (4), clock after the call (8); an unused
 *                     entry is zeros
 *   bytes 508, 509    the sum of bytes 0 to 507, modulo 65,535
 *   bytes 510, 511    the sum of that sum's running values, modulo 65,535
 *
 * The content of a block is CARD_CONTENT_WORDS words, which are plain numbers of the machine: word 0 is the block's
 * number, word 1 the number of entries, and entry k, from 0, has its kind, flow, length, handle and clock in the words
 * 2 + 5 k to 6 + 5 k. The words of unused entries are 0. struct card_block is these words by name.
 *
 * Writer and reader undo each other. What was written is read as the same content; an accepted block, written again, is
 * the same 512 bytes. So an accepted block has one content, and a content one block.
 *
 * What is lent. Each pointer has to hold as many words or bytes as the count beside it says; NULL is for count 0 only.
 * Content and block may not overlap. Apart from that any values may be handed in: a call never crashes, reads and
 * writes nothing outside what is lent, and always returns. It keeps no pointer, allocates nothing and does not wait.
 * Nothing needs a value before it is written: a writing does not hang on what stood in the block, nor a reading on what
 * stood in the content.
 *
 * Refusals. A refused writing changes no byte of the block, and a refused reading no word of the content.
 *
 * Threads. The library has no state of its own: calls may run at the same time as long as none writes what another one
 * is lent.
 *
 * Stack, measured with the kit rattle-kit-13f, with the return address: a writing 1,576 bytes, a reading 2,120. Where
 * the loader binds memcpy or memset at the first call, that call takes some 3,200 more.
 *
 * The library is libcard.a. It is built for x86_64-unknown-linux-gnu and has the C calling convention of that target.
 * Of the program that links it, it needs memcpy and memset and nothing else; libuplink.a may stand beside it. */
#ifndef UPLINK_CARD_H
#define UPLINK_CARD_H

#include <stddef.h>
#include <stdint.h>

#ifdef __cplusplus
extern "C" {
#endif

/* Grows by one when a call, a number or a promise of this file is added, changed or taken away. */
#define CARD_VERSION 1

#define CARD_BLOCK_BYTES 512
#define CARD_CONTENT_WORDS 157
#define CARD_ENTRIES 31

/* What call an entry is of. At an arrival and at a pick there are the packet's flow, 0 to 63, its length, 1 to 1,500
 * bytes, its handle and the server clock after the call, in ticks; at Idle these are all 0. */
#define CARD_UNUSED 0
#define CARD_ARRIVAL 1
#define CARD_PICK 2 /* without a leap */
#define CARD_LEAP 3 /* a pick with a leap */
#define CARD_IDLE 4

/* What a call answers. */
#define CARD_DONE 0
#define CARD_REFUSED_SIZE 1      /* block has not exactly CARD_BLOCK_BYTES bytes */
#define CARD_REFUSED_SUMS 11     /* reading: the sums are not those of the bytes before them */
#define CARD_REFUSED_FIELD 12    /* a field is outside the rules above; writing: or a word does not fit its field */
#define CARD_REFUSED_CONTENT 101 /* content has not exactly CARD_CONTENT_WORDS words */

/* Writes the block of this content. Order of refusals: 101, 1, 12. */
uint32_t card_write(const uint64_t *content, size_t content_words, uint8_t *block, size_t block_bytes);

/* Reads the content of this block: with CARD_DONE all words of content are written.
 * Order of refusals: 101, 1, 11, 12. */
uint32_t card_read(const uint8_t *block, size_t block_bytes, uint64_t *content, size_t content_words);

/* The content by name: CARD_CONTENT_WORDS words without a gap. */
struct card_entry {
    uint64_t kind, flow, length, handle, clock;
};

struct card_block {
    uint64_t number, count;
    struct card_entry entries[CARD_ENTRIES];
};

/* card_write and card_read over it. */
static inline uint32_t card_write_block(const struct card_block *content, uint8_t *block, size_t block_bytes)
{
    return card_write((const uint64_t *)content, CARD_CONTENT_WORDS, block, block_bytes);
}

static inline uint32_t card_read_block(const uint8_t *block, size_t block_bytes, struct card_block *content)
{
    return card_read(block, block_bytes, (uint64_t *)content, CARD_CONTENT_WORDS);
}

#ifdef __cplusplus
}
#endif

#endif
