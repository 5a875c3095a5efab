/* The steps of a walk that tests a file, and its first ones, over the header of a load file. */
#ifndef CAREFUL_STEPS_H
#define CAREFUL_STEPS_H

#include "hunk.h"
#include "longwords.h"

/* What a walk counts. */
enum counted { NOTHING, UNITS, BLOCKS, SYMBOLS, RELOCATIONS, ENTRIES, REFERENCES };

struct walk {
    const uint8_t *bytes;
    size_t longs; /* whole longwords */
    int is_odd;   /* and some bytes after them */
    size_t at;    /* the longword it has come to; of a refusal, its place */
    uint64_t counted;
    uint32_t hunks;     /* of a load file; 0 of an object file */
    uint64_t declared;  /* the bytes that they have in memory together */
    size_t after_table; /* the longword after the table */
    int has_attributes; /* whether an entry of the table has two longwords */
    /* Where the block begins that is tested, and the hunk it is in: so far nothing is refused. */
    size_t block;
    uint32_t hunk;
    int is_open, has_content;
};

INLINED struct hunk_answer answer(uint32_t number, uint32_t hunk, uint64_t place, uint64_t count)
{
    return (struct hunk_answer){number, hunk, place, count};
}

/* ---- steps: each gives the number of a refusal, or 0 */

INLINED uint32_t refuse(struct walk *walk, size_t place, uint32_t number)
{
    walk->at = place;
    return number;
}

/* Refuses the longword that was read last. */
INLINED uint32_t refuse_last(struct walk *walk, uint32_t number) { return refuse(walk, walk->at - 1, number); }

INLINED uint32_t next(struct walk *walk, uint32_t *word)
{
    if (RARELY(walk->at >= walk->longs))
        return refuse(walk, walk->longs, HUNK_TRUNCATED);
    *word = long_at(walk->bytes, walk->at++);
    return 0;
}

INLINED uint32_t pass(struct walk *walk, uint64_t longs)
{
    if (RARELY(longs > walk->longs - walk->at))
        return refuse(walk, walk->longs, HUNK_TRUNCATED);
    walk->at += (size_t)longs;
    return 0;
}

/* ---- the header */

OUTLINED uint32_t refusal_in_header(uint32_t at, uint32_t word, uint32_t hunks)
{
    switch (at) {
    case 0:
        if (word == UNIT)
            return HUNK_IS_OBJECT;
        return word == HEADER ? 0 : word == LIB ? HUNK_LIBRARY : HUNK_NOT_LOAD_FILE;
    case 1:
        return word ? HUNK_RESIDENT : 0;
    case 2:
        return !word ? HUNK_NO_HUNKS : word > MOST_HUNKS ? HUNK_TOO_MANY_HUNKS : 0;
    case 3:
        return word ? HUNK_FIRST_HUNK : 0;
    }
    return word != hunks - 1 ? HUNK_LAST_HUNK : 0;
}

/* Whether the longwords before the table are as they have to be, all tested at once. */
INLINED int has_good_start(const struct walk *walk)
{
    const uint8_t *bytes = walk->bytes;
    if (walk->longs < TABLE_AT)
        return 0;
    uint32_t last = long_at(bytes, 2) - 1;
    return !((long_at(bytes, 0) ^ HEADER) | long_at(bytes, 1) | long_at(bytes, 3) | (long_at(bytes, 4) ^ last)) &&
           last < MOST_HUNKS;
}

INLINED uint32_t test_longs_before_table(struct walk *walk)
{
    if (has_good_start(walk)) {
        walk->hunks = long_at(walk->bytes, 2);
        walk->at = TABLE_AT;
        return 0;
    }
    for (uint32_t at = 0; at < TABLE_AT; at++) {
        uint32_t word, number;
        if ((number = next(walk, &word)))
            return number;
        if (at == 2)
            walk->hunks = word;
        if ((number = refusal_in_header(at, word, walk->hunks)))
            return refuse_last(walk, number);
    }
    return 0;
}

/* Whether no entry has attributes: one loop over all, which a compiler makes of vectors. */
INLINED int test_short_table(struct walk *walk)
{
    const uint8_t *table = walk->bytes + 4 * TABLE_AT;
    uint64_t longs = 0;
    uint32_t both_bits = 0;
    if (walk->longs - TABLE_AT < walk->hunks)
        return 0;
    for (uint32_t i = 0; i < walk->hunks; i++) {
        uint32_t word = get(table + 4 * (size_t)i);
        both_bits |= word & word << 1;
        longs += word & SIZE;
    }
    if (both_bits >> 31)
        return 0;
    walk->declared = 4 * longs;
    walk->after_table = TABLE_AT + (size_t)walk->hunks;
    walk->at = walk->after_table;
    return 1;
}

INLINED uint32_t test_table(struct walk *walk)
{
    if (test_short_table(walk))
        return 0;
    for (uint32_t i = 0; i < walk->hunks; i++) {
        uint32_t word, number;
        if ((number = next(walk, &word)))
            return number;
        walk->declared += 4 * (uint64_t)(word & SIZE);
        if (longs_of_entry(word) == 1)
            continue;
        walk->has_attributes = 1;
        if ((number = pass(walk, 1)))
            return number;
    }
    walk->after_table = walk->at;
    return 0;
}

INLINED uint32_t test_header(struct walk *walk)
{
    uint32_t number = test_longs_before_table(walk);
    return number ? number : test_table(walk);
}

#endif
