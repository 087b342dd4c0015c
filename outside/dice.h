/* Numbers drawn from a seed: the same seed gives the same calls. */
#ifndef DICE_H
#define DICE_H

#include <stdbool.h>
#include <stdint.h>

void dice_seed(uint64_t seed);
uint64_t dice(void);             /* any 64-bit number */
uint64_t below(uint64_t end);    /* 0 to end - 1 */
bool one_in(uint64_t n);         /* true once in n */
uint64_t spread(uint64_t most);  /* 0 to most: 0, 1, most - 1 and most often */

#define ONE_OF(list) ((list)[below(sizeof(list) / sizeof *(list))])

#endif
