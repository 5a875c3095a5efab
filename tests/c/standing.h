/* Which numbers hunk.h allows a loader, by its words beside each of them. */
#ifndef STANDING_H
#define STANDING_H

#include "hunk.h"
#include <stddef.h>

#define WHOLE 14

/* Whether the numbers say that the open hunk has no content yet, or has it, where the phase decides it. */
static inline int content_fits(const struct hunk_loader *l)
{
    switch (l->phase) {
    case 1:
    case 5:
    case 6:
    case 7:
        return l->has_content == 0;
    case 9:
    case 10:
    case 11:
        return l->has_content == 1;
    default:
        return l->has_content <= 1;
    }
}

/* Whether part and owed are as the phase has them. */
static inline int owes(const struct hunk_loader *l)
{
    switch (l->phase) {
    case 7:
        return l->part < UINT32_C(1) << 30 && l->owed < l->part;
    case 8:
    case 10:
        return l->part == 0;
    case 11:
        return l->part < l->hunks;
    case 13:
        return l->part == 0 && l->owed < UINT32_C(1) << 24;
    default:
        return l->part == 0 && l->owed == 0;
    }
}

/* The fewest bytes that may have been fed: a header has five longwords and one for each hunk; a file
 * that is whole has three more for each. */
static inline uint64_t least_fed(const struct hunk_loader *l)
{
    if (l->phase == WHOLE)
        return 4 * (5 + 4 * (uint64_t)l->hunk);
    return 4 * (5 + (uint64_t)l->hunks);
}

/* Whether a loader may have stood so, whatever it has refused. */
static inline int stood(const struct hunk_loader *l)
{
    if (l->start % 4 != 0 || l->pending > 3 || l->fed < least_fed(l))
        return 0;
    if (l->fed % 4 != l->pending && l->fed != UINT64_MAX)
        return 0;
    if (l->phase == WHOLE)
        return l->hunk >= 1 && l->hunk <= 65536 && l->hunks == 0 && l->ahead == 0 &&
               l->has_content == 0 && l->part == 0 && l->owed == 0 && l->pending == 0;
    return l->phase >= 1 && l->phase < WHOLE && l->hunks <= 65536 &&
           (uint64_t)l->hunk + 1 + l->ahead == l->hunks && content_fits(l) && owes(l);
}

/* Whether the numbers are those of a loader that has refused nothing. */
static inline int stands(const struct hunk_loader *l)
{
    return stood(l) && l->place == 0 && l->refused == 0 && l->refused_hunk == 0;
}

/* Whether they are those of one that has refused a longword, for a reason that hunk_feed answers. */
static inline int has_refused(const struct hunk_loader *l)
{
    int is_reason = l->refused == HUNK_LIBRARY || l->refused == HUNK_BOTH_BITS ||
                    (l->refused >= HUNK_OVERLAY && l->refused <= HUNK_BAD_OFFSET);
    return stood(l) && is_reason && l->refused_hunk == 0 && l->place % 4 == 0;
}

/* Whether numbers of a loader fit the places and so much memory. */
static inline int fits(const struct hunk_loader *l, const struct hunk_place *places, size_t hunks,
                       size_t memory)
{
    if (l->phase == WHOLE)
        return l->hunk == hunks && l->start == memory;
    if (l->hunks != hunks)
        return 0;
    uint64_t size = 4 * (uint64_t)(places[l->hunk].word & UINT32_C(0x3FFFFFFF));
    if (l->phase == 7 && l->part > size / 4)
        return 0;
    return size <= memory && l->start <= memory - size;
}

#endif
