/* What is lent to one call of the library, with guards around it.
 *
 * A loan has pages of its own between two that cannot be touched. What is lent stands at their start, at their end or
 * between, so that reading or writing one place too far either crashes or shows in the guards. */
#ifndef LOAN_H
#define LOAN_H

#include <stdbool.h>
#include <stddef.h>

struct loan {
    const char *name;
    size_t place_bytes;        /* the size of one place */
    unsigned char *floor;      /* the pages of this loan */
    unsigned char *roof;
    unsigned char *at;         /* where the lent places begin */
    size_t lent;               /* the bytes that are lent */
    size_t kept;               /* of these, the bytes with a content; the others are filled as the guards are */
};

void loan_make(struct loan *loan, const char *name, size_t place_bytes, size_t most_places);

/* Lends `places` places that begin with `content`, of which there are `content_places`. More places than the loan has
 * room for are lent from pages that can only be read; none at all is, half the time, a null pointer. */
void *lend(struct loan *loan, size_t places, const void *content, size_t content_places);

/* True where the lent places begin with `content` and nothing else has changed; otherwise says what differs. */
bool loan_holds(const struct loan *loan, const void *content);

#endif
