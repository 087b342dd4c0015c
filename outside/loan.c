#define _DEFAULT_SOURCE
#include "loan.h"

#include <inttypes.h>
#include <stdint.h>
#include <stdio.h>
#include <stdlib.h>
#include <string.h>
#include <sys/mman.h>

#include "dice.h"

#define PAGE ((size_t)4096)
#define GUARD ((size_t)256)
#define GUARD_BYTE 0xa5
#define WIDE (((size_t)1 << 35) + PAGE * 16) /* 2^32 words and some more */

static void *map_pages(size_t bytes, int protection)
{
    void *pages = mmap(NULL, bytes, protection, MAP_PRIVATE | MAP_ANONYMOUS | MAP_NORESERVE, -1, 0);

    if (pages == MAP_FAILED) {
        perror("outside: no pages to lend");
        exit(2);
    }
    return pages;
}

static void *wide_pages(void)
{
    static void *wide;

    if (wide == NULL)
        wide = map_pages(WIDE, PROT_READ);
    return wide;
}

void loan_make(struct loan *loan, const char *name, size_t place_bytes, size_t most_places)
{
    size_t room = (place_bytes * most_places + 4 * GUARD + PAGE - 1) / PAGE * PAGE;
    unsigned char *pages = map_pages(room + 2 * PAGE, PROT_NONE);

    if (mprotect(pages + PAGE, room, PROT_READ | PROT_WRITE) != 0) {
        perror("outside: no pages to lend");
        exit(2);
    }
    loan->name = name;
    loan->place_bytes = place_bytes;
    loan->floor = pages + PAGE;
    loan->roof = loan->floor + room;
}

static unsigned char *zone_start(const struct loan *loan)
{
    return loan->at - loan->floor < (ptrdiff_t)GUARD ? loan->floor : loan->at - GUARD;
}

static unsigned char *zone_end(const struct loan *loan)
{
    unsigned char *end = loan->at + loan->lent;

    return loan->roof - end < (ptrdiff_t)GUARD ? loan->roof : end + GUARD;
}

void *lend(struct loan *loan, size_t places, const void *content, size_t content_places)
{
    size_t room = (size_t)(loan->roof - loan->floor) / loan->place_bytes;

    if (places > room) {
        loan->at = NULL;
        return wide_pages();
    }
    loan->lent = places * loan->place_bytes;
    loan->kept = (places < content_places ? places : content_places) * loan->place_bytes;
    switch (below(3)) {
    case 0: loan->at = loan->floor; break;
    case 1: loan->at = loan->roof - loan->lent; break;
    default: loan->at = loan->floor + below(room - places + 1) * loan->place_bytes; break;
    }
    memset(zone_start(loan), GUARD_BYTE, (size_t)(zone_end(loan) - zone_start(loan)));
    memcpy(loan->at, content, loan->kept);
    return places == 0 && one_in(2) ? NULL : loan->at;
}

static bool guards_hold(const struct loan *loan, const unsigned char *from, const unsigned char *to)
{
    for (const unsigned char *byte = from; byte < to; byte++) {
        if (*byte != GUARD_BYTE) {
            printf("  %s: byte %td from its start is not part of the loan and became %#x\n",
                   loan->name, byte - loan->at, *byte);
            return false;
        }
    }
    return true;
}

static uint64_t value(const struct loan *loan, const unsigned char *place)
{
    uint64_t number = 0;

    memcpy(&number, place, loan->place_bytes); /* x86-64: the low byte stands first */
    return number;
}

static void show_difference(const struct loan *loan, const unsigned char *content)
{
    for (size_t i = 0; i < loan->kept; i += loan->place_bytes) {
        if (memcmp(loan->at + i, content + i, loan->place_bytes) != 0) {
            printf("  %s %zu: expected %" PRIu64 ", got %" PRIu64 "\n", loan->name, i / loan->place_bytes,
                   value(loan, content + i), value(loan, loan->at + i));
            return;
        }
    }
}

bool loan_holds(const struct loan *loan, const void *content)
{
    if (loan->at == NULL)
        return true;
    if (memcmp(loan->at, content, loan->kept) != 0) {
        show_difference(loan, content);
        return false;
    }
    return guards_hold(loan, zone_start(loan), loan->at) && guards_hold(loan, loan->at + loan->kept, zone_end(loan));
}
