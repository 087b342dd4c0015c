/* The log card's two calls in plain C, as include/card.h has them: the same checks, words, bytes and numbers. */
#ifndef CARD_PLAIN_H
#define CARD_PLAIN_H

#include <stddef.h>
#include <stdint.h>

uint32_t plain_card_write(const uint64_t *content, size_t content_words, uint8_t *block, size_t block_bytes);
uint32_t plain_card_read(const uint8_t *block, size_t block_bytes, uint64_t *content, size_t content_words);

#endif
