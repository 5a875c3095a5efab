/* The walk that tests a file of either kind, from its first longword to its last: each call of careful.h begins with
 * it. It is compiled anew for each of them, so that it counts what that call needs, and nothing else. */
#ifndef CAREFUL_WALK_H
#define CAREFUL_WALK_H

#include "careful_steps.h"

/* ---- blocks */

/* Why a block of this kind can't stand here. */
OUTLINED uint32_t refusal_of(uint32_t kind, int is_load)
{
    switch (kind) {
    case UNIT:
    case HEADER:
        return HUNK_MISPLACED;
    case OVERLAY:
        return HUNK_OVERLAY;
    case BREAK:
        return HUNK_BREAK;
    case DREL32:
    case RELOC32SHORT:
        return HUNK_SHORT_RELOC;
    case LIB:
    case INDEX:
        return HUNK_LIBRARY;
    }
    return is_load && kind >= RELOC16 && kind <= ABSRELOC16 && kind != NO_KIND ? HUNK_NOT_IN_LOAD_FILE
                                                                               : HUNK_UNKNOWN_BLOCK;
}

INLINED uint32_t test_content(struct walk *walk, int is_load, uint32_t declared, int has_bytes)
{
    uint32_t longs, number;
    if (walk->has_content)
        return refuse_last(walk, HUNK_SECOND_CONTENT);
    if ((number = next(walk, &longs)))
        return number;
    longs &= SIZE;
    if (is_load && longs > declared)
        return refuse_last(walk, HUNK_CONTENT_TOO_LONG);
    if (has_bytes && (number = pass(walk, longs)))
        return number;
    walk->has_content = 1;
    return 0;
}

INLINED uint32_t test_counted(struct walk *walk, int is_name)
{
    uint32_t longs, number;
    if ((number = next(walk, &longs)))
        return number;
    return is_name && longs >> 24 ? refuse_last(walk, HUNK_NAME_WORD) : pass(walk, longs);
}

INLINED uint32_t test_symbols(struct walk *walk, enum counted counted)
{
    for (;;) {
        uint32_t word, number;
        if ((number = next(walk, &word)) || !word)
            return number;
        if ((number = pass(walk, (uint64_t)(word & NAME_SIZE) + 1)))
            return number;
        walk->counted += counted == SYMBOLS;
    }
}

/* Of so many offsets the first that is above the most, or their number. */
OUTLINED size_t first_above(const uint8_t *offsets, size_t count, uint32_t most)
{
    size_t i = 0;
    while (i < count && get(offsets + 4 * i) <= most)
        i++;
    return i;
}

INLINED uint32_t largest(const uint8_t *offsets, uint32_t count)
{
    uint32_t most = 0;
    for (uint32_t i = 0; i < count; i++) {
        uint32_t offset = get(offsets + 4 * (size_t)i);
        most = offset > most ? offset : most;
    }
    return most;
}

/* Tests those of so many offsets that are there, in a hunk of so many longwords. */
INLINED uint32_t test_offsets(struct walk *walk, uint32_t count, uint32_t declared)
{
    const uint8_t *offsets = walk->bytes + 4 * walk->at;
    size_t here = count <= walk->longs - walk->at ? count : walk->longs - walk->at;
    uint32_t most = declared > UINT32_MAX / 4 ? UINT32_MAX - 3 : 4 * declared - 4;
    if (here > 4) {
        if (largest(offsets, (uint32_t)here) <= most)
            return 0;
        return refuse(walk, walk->at + first_above(offsets, here, most), HUNK_BAD_OFFSET);
    }
    for (size_t i = 0; i < here; i++)
        if (RARELY(get(offsets + 4 * i) > most))
            return refuse(walk, walk->at + i, HUNK_BAD_OFFSET);
    return 0;
}

INLINED uint32_t test_groups(struct walk *walk, enum counted counted, int is_load, uint32_t declared)
{
    if (!walk->has_content)
        return refuse_last(walk, HUNK_BEFORE_CONTENT);
    for (;;) {
        uint32_t count, target, number;
        if ((number = next(walk, &count)) || !count)
            return number;
        if (is_load && !declared)
            return refuse_last(walk, HUNK_NOTHING_TO_RELOCATE);
        if ((number = next(walk, &target)))
            return number;
        if (is_load && RARELY(target >= walk->hunks))
            return refuse_last(walk, HUNK_BAD_TARGET);
        if (is_load && (number = test_offsets(walk, count, declared)))
            return number;
        if ((number = pass(walk, count)))
            return number;
        walk->counted += counted == RELOCATIONS ? count : 0;
    }
}

INLINED uint32_t test_entry(struct walk *walk, enum counted counted, uint32_t word)
{
    uint32_t kind = word >> 24, number, value, count;
    if (!defines(kind) && !refers(kind))
        return refuse_last(walk, HUNK_EXT_KIND);
    if ((number = pass(walk, word & NAME_SIZE)))
        return number;
    walk->counted += counted == ENTRIES;
    if (defines(kind))
        return next(walk, &value);
    if (is_common(kind) && (number = next(walk, &value)))
        return number;
    if ((number = next(walk, &count)) || (number = pass(walk, count)))
        return number;
    walk->counted += counted == REFERENCES ? count : 0;
    return 0;
}

INLINED uint32_t test_entries(struct walk *walk, enum counted counted)
{
    if (!walk->has_content)
        return refuse_last(walk, HUNK_BEFORE_CONTENT);
    for (;;) {
        uint32_t word, number;
        if ((number = next(walk, &word)) || !word)
            return number;
        if ((number = test_entry(walk, counted, word)))
            return number;
    }
}

/* What comes after the word of a block. */
INLINED uint32_t test_block(struct walk *walk, enum counted counted, int is_load, uint32_t declared, uint32_t word)
{
    uint32_t kind = word & KIND;
    switch (kind) {
    case CODE:
    case DATA:
        return test_content(walk, is_load, declared, 1);
    case BSS:
        return test_content(walk, is_load, declared, 0);
    case RELOC32:
        return test_groups(walk, counted, is_load, declared);
    case SYMBOL:
        return test_symbols(walk, counted);
    case NAME:
        return test_counted(walk, 1);
    case DEBUG:
        return test_counted(walk, 0);
    case EXT:
        if (!is_load)
            return test_entries(walk, counted);
    }
    if (!is_load && width_of(kind))
        return test_groups(walk, counted, is_load, declared);
    if ((kind >= UNIT && kind <= ABSRELOC16 && kind != NO_KIND) || !(word & ADVISORY))
        return refuse_last(walk, refusal_of(kind, is_load));
    return test_counted(walk, 0);
}

/* The blocks of a hunk, with its END. */
INLINED uint32_t test_hunk(struct walk *walk, enum counted counted, int is_load, uint32_t declared)
{
    walk->has_content = walk->is_open = 0;
    for (;;) {
        uint32_t word, number;
        walk->block = walk->at;
        if ((number = next(walk, &word)))
            return number;
        if (RARELY(word >> 30 == 3))
            return refuse_last(walk, HUNK_BOTH_BITS);
        walk->counted += counted == BLOCKS;
        if ((word & KIND) == END)
            return walk->has_content ? 0 : refuse_last(walk, HUNK_NO_CONTENT);
        if (RARELY((number = test_block(walk, counted, is_load, declared, word))))
            return number;
        walk->is_open = 1;
    }
}

/* ---- files */

INLINED uint32_t test_hunks(struct walk *walk, enum counted counted)
{
    size_t entry = TABLE_AT;
    for (walk->hunk = 0; walk->hunk < walk->hunks; walk->hunk++) {
        uint32_t word = long_at(walk->bytes, entry), number;
        entry += longs_of_entry(word);
        if ((number = test_hunk(walk, counted, 1, word & SIZE)))
            return number;
    }
    return 0;
}

/* Whether the unit ends here: another one begins, or nothing is left. */
INLINED int ends_unit(const struct walk *walk)
{
    return walk->at < walk->longs ? long_at(walk->bytes, walk->at) == UNIT : !walk->is_odd;
}

INLINED uint32_t test_unit(struct walk *walk, enum counted counted)
{
    uint32_t word, number;
    walk->block = walk->at;
    walk->is_open = 0;
    if ((number = next(walk, &word)))
        return number;
    if (word != UNIT)
        return refuse_last(walk, HUNK_MISPLACED);
    if ((number = test_counted(walk, 1)))
        return number;
    walk->counted += counted == UNITS;
    while (!ends_unit(walk))
        if ((number = test_hunk(walk, counted, 0, 0)))
            return number;
    return 0;
}

INLINED uint32_t test_units(struct walk *walk, enum counted counted)
{
    while (walk->at < walk->longs || walk->is_odd) {
        uint32_t number = test_unit(walk, counted);
        if (number)
            return number;
    }
    return 0;
}

INLINED struct walk walk_of(const uint8_t *bytes, uint64_t len)
{
    return (struct walk){.bytes = bytes, .longs = len / 4, .is_odd = len % 4 != 0};
}

INLINED int begins_as_object(const struct walk *walk) { return walk->longs && long_at(walk->bytes, 0) == UNIT; }

INLINED uint32_t test_file(struct walk *walk, enum counted counted)
{
    if (begins_as_object(walk))
        return test_units(walk, counted);
    uint32_t number = test_header(walk);
    if (number) {
        walk->hunks = 0;
        return number;
    }
    return test_hunks(walk, counted);
}

#endif
