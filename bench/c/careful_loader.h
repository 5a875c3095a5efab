/* The numbers of a loader, which a program might make up: whether they are what hunk.h says beside them. */
#ifndef CAREFUL_LOADER_H
#define CAREFUL_LOADER_H

#include "careful.h"
#include "longwords.h"

/* What the next longword is for; after the last, that the file is whole. */
enum {
    AT_FIRST_BLOCK = 1,
    AT_BLOCK_WORD,
    AT_NAME_COUNT,
    AT_LONG_COUNT,
    AT_CONTENT_SIZE,
    AT_BSS_SIZE,
    AT_CONTENT,
    AT_PAYLOAD,
    AT_GROUP_COUNT,
    AT_TARGET,
    AT_OFFSET,
    AT_ENTRY_WORD,
    AT_SYMBOL,
    AT_WHOLE
};

static inline uint32_t longs_of(const struct hunk_place *place) { return place->word & SIZE; }

static inline struct hunk_answer strange(void) { return (struct hunk_answer){HUNK_STRANGE, 0, 0, 0}; }

static inline struct hunk_answer done(const struct hunk_loader *loader, size_t count)
{
    return (struct hunk_answer){HUNK_OK, loader->hunk, loader->fed, count};
}

static inline uint64_t add_fed(uint64_t fed, size_t count)
{
    return fed > UINT64_MAX - count ? UINT64_MAX : fed + count;
}

/* What has_content may be in a phase, and how many longwords may be owed. */
static const struct limits {
    uint32_t least_content, most_content, most_owed;
} limits[] = {
    {1, 0, 0}, /* none is 0 */
    [AT_FIRST_BLOCK] = {0, 0, 0},
    [AT_BLOCK_WORD] = {0, 1, 0},
    [AT_NAME_COUNT] = {0, 1, 0},
    [AT_LONG_COUNT] = {0, 1, 0},
    [AT_CONTENT_SIZE] = {0, 0, 0},
    [AT_BSS_SIZE] = {0, 0, 0},
    [AT_CONTENT] = {0, 0, SIZE},
    [AT_PAYLOAD] = {0, 1, UINT32_MAX},
    [AT_GROUP_COUNT] = {1, 1, 0},
    [AT_TARGET] = {1, 1, UINT32_MAX},
    [AT_OFFSET] = {1, 1, UINT32_MAX},
    [AT_ENTRY_WORD] = {0, 1, 0},
    [AT_SYMBOL] = {0, 1, NAME_SIZE},
};

/* Whether part, owed and has_content are as the phase says, where a hunk is open. */
static inline int may_owe(const struct hunk_loader *loader)
{
    if (loader->phase > AT_SYMBOL)
        return 0;
    const struct limits *most = limits + loader->phase;
    if (loader->has_content < most->least_content || loader->has_content > most->most_content ||
        loader->owed > most->most_owed)
        return 0;
    if (loader->phase == AT_CONTENT)
        return loader->owed < loader->part && loader->part <= SIZE;
    return loader->phase == AT_OFFSET ? loader->part < loader->hunks : !loader->part;
}

/* Whether the numbers of a loader with an open hunk are as hunk.h says beside them. */
static inline int is_open(const struct hunk_loader *loader)
{
    return loader->hunks <= MOST_HUNKS && (uint64_t)loader->hunk + 1 + loader->ahead == loader->hunks &&
           loader->fed >= 20 + 4 * (uint64_t)loader->hunks && may_owe(loader);
}

/* And those of one after the last. */
static inline int is_whole(const struct hunk_loader *loader)
{
    return !(loader->hunks | loader->ahead | loader->has_content | loader->part | loader->owed | loader->pending) &&
           loader->hunk && loader->hunk <= MOST_HUNKS && loader->fed >= 20 + 16 * (uint64_t)loader->hunk;
}

static inline int is_counted(const struct hunk_loader *loader)
{
    return loader->start % 4 == 0 && loader->pending <= 3 &&
           (loader->fed % 4 == loader->pending || loader->fed == UINT64_MAX);
}

static inline int may_stand(const struct hunk_loader *loader)
{
    return loader->phase == AT_WHOLE ? is_whole(loader) : is_open(loader);
}

static inline int is_clean(const struct hunk_loader *loader)
{
    return !(loader->place | loader->refused | loader->refused_hunk);
}

/* The refusal that the numbers tell, or that they are strange. */
OUTLINED struct hunk_answer tell_again(const struct hunk_loader *loader)
{
    int is_of_body = loader->refused == HUNK_LIBRARY || loader->refused == HUNK_BOTH_BITS ||
                     (loader->refused >= HUNK_OVERLAY && loader->refused <= HUNK_BAD_OFFSET);
    if (!is_counted(loader) || !may_stand(loader) || !is_of_body || loader->refused_hunk || loader->place % 4)
        return strange();
    return (struct hunk_answer){loader->refused, 0, loader->place, 0};
}

/* Whether the open hunk lies in the memory. */
static inline int lies_in(const struct hunk_place *place, uint64_t start, size_t memory_len)
{
    uint64_t bytes = 4 * (uint64_t)longs_of(place);
    return bytes <= memory_len && start <= memory_len - bytes;
}

/* Whether the numbers fit the places and the memory. */
static inline int fits(const struct hunk_loader *loader, const struct hunk_place *places, size_t places_len,
                       size_t memory_len)
{
    if (loader->phase == AT_WHOLE)
        return loader->hunk == places_len && loader->start == memory_len;
    return loader->hunks == places_len && lies_in(places + loader->hunk, loader->start, memory_len) &&
           (loader->phase != AT_CONTENT || loader->part <= longs_of(places + loader->hunk));
}

#endif
