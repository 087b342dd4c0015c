/* The log card in plain C, document 02 d): what the proved library is measured beside. Each sum takes a remainder at
 * every byte, as the library does; with CARD_ONE_REMAINDER defined, one at the end of the block. */
#include <stdbool.h>
#include <string.h>

#include "../include/card.h"
#include "card_plain.h"

#define SUMMED 508 /* bytes */
#define MODULUS 65535
#define HEAD_BYTES 12
#define ENTRY_BYTES 16
#define HEAD_WORDS 2
#define ENTRY_WORDS 5

static void put(uint8_t *bytes, int count, uint64_t number)
{
    for (int i = 0; i < count; i++)
        bytes[i] = (uint8_t)(number >> 8 * i);
}

static uint64_t get(const uint8_t *bytes, int count)
{
    uint64_t number = 0;

    for (int i = count - 1; i >= 0; i--)
        number = number << 8 | bytes[i];
    return number;
}

static void sum(const uint8_t *block, uint32_t *first, uint32_t *second)
{
    uint32_t a = 0, b = 0;

    for (int i = 0; i < SUMMED; i++) {
#ifdef CARD_ONE_REMAINDER
        a += block[i];
        b += a;
#else
        a = (a + block[i]) % MODULUS;
        b = (b + a) % MODULUS;
#endif
    }
    *first = a % MODULUS;
    *second = b % MODULUS;
}

static bool rest_blank(const uint64_t *entry)
{
    return entry[1] == 0 && entry[2] == 0 && entry[3] == 0 && entry[4] == 0;
}

static bool entry_legal(const uint64_t *entry)
{
    switch (entry[0]) {
    case CARD_ARRIVAL:
    case CARD_PICK:
    case CARD_LEAP:
        return entry[1] <= 63 && entry[2] >= 1 && entry[2] <= 1500 && entry[3] <= UINT32_MAX;
    case CARD_IDLE:
        return rest_blank(entry);
    default:
        return false;
    }
}

static bool legal(const uint64_t *content)
{
    const uint64_t *entry = content + HEAD_WORDS;

    if (content[0] > UINT32_MAX || content[1] < 1 || content[1] > CARD_ENTRIES)
        return false;
    for (uint64_t k = 0; k < CARD_ENTRIES; k++, entry += ENTRY_WORDS)
        if (k < content[1] ? !entry_legal(entry) : entry[0] != 0 || !rest_blank(entry))
            return false;
    return true;
}

uint32_t plain_card_write(const uint64_t *content, size_t content_words, uint8_t *block, size_t block_bytes)
{
    const uint64_t *entry = content + HEAD_WORDS;
    uint32_t first, second;

    if (content_words != CARD_CONTENT_WORDS)
        return CARD_REFUSED_CONTENT;
    if (block_bytes != CARD_BLOCK_BYTES)
        return CARD_REFUSED_SIZE;
    if (!legal(content))
        return CARD_REFUSED_FIELD;
    put(block, 4, content[0]);
    block[4] = (uint8_t)content[1];
    memset(block + 5, 0, HEAD_BYTES - 5);
    for (uint8_t *at = block + HEAD_BYTES; at < block + SUMMED; at += ENTRY_BYTES, entry += ENTRY_WORDS) {
        at[0] = (uint8_t)entry[0];
        at[1] = (uint8_t)entry[1];
        put(at + 2, 2, entry[2]);
        put(at + 4, 4, entry[3]);
        put(at + 8, 8, entry[4]);
    }
    sum(block, &first, &second);
    put(block + SUMMED, 2, first);
    put(block + SUMMED + 2, 2, second);
    return CARD_DONE;
}

uint32_t plain_card_read(const uint8_t *block, size_t block_bytes, uint64_t *content, size_t content_words)
{
    uint64_t found[CARD_CONTENT_WORDS], *entry = found + HEAD_WORDS;
    uint32_t first, second;

    if (content_words != CARD_CONTENT_WORDS)
        return CARD_REFUSED_CONTENT;
    if (block_bytes != CARD_BLOCK_BYTES)
        return CARD_REFUSED_SIZE;
    sum(block, &first, &second);
    if (get(block + SUMMED, 2) != first || get(block + SUMMED + 2, 2) != second)
        return CARD_REFUSED_SUMS;
    if (get(block + 5, HEAD_BYTES - 5) != 0)
        return CARD_REFUSED_FIELD;
    found[0] = get(block, 4);
    found[1] = block[4];
    for (const uint8_t *at = block + HEAD_BYTES; at < block + SUMMED; at += ENTRY_BYTES, entry += ENTRY_WORDS) {
        entry[0] = at[0];
        entry[1] = at[1];
        entry[2] = get(at + 2, 2);
        entry[3] = get(at + 4, 4);
        entry[4] = get(at + 8, 8);
    }
    if (!legal(found))
        return CARD_REFUSED_FIELD;
    memcpy(content, found, sizeof found);
    return CARD_DONE;
}
