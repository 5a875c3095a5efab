/* See calls.h: the calls of a loader as a user would write it. */
#include "calls.h"
#include "hand.h"

static struct hunk_answer answered(struct hand_answer a)
{
    return (struct hunk_answer){(uint32_t)a.err, a.hunks, a.place, a.count};
}

static struct hunk_answer call_table(void)
{
    return answered(hand_table(taken.file, taken.file_len, UINT64_MAX, (struct hand_row *)taken.rows, MOST_ROWS));
}

static struct hunk_answer call_load(void)
{
    return answered(hand_load(taken.file, taken.file_len, BASE, taken.memory, taken.memory_len));
}

static struct hunk_answer call_feed(void)
{
    static struct hand_place places[MOST_ROWS];
    static uint32_t placed;
    struct hand_loader loader;
    for (; placed < taken.table.hunk; placed++)
        places[placed] = (struct hand_place){taken.rows[placed].bytes, taken.places[placed].base, 0};
    hand_begin(&loader, places, taken.table.hunk, taken.table.place, taken.memory, taken.memory_len);
    for (uint64_t at = taken.table.place, left; (left = taken.file_len - at);
         at += left < taken.piece ? left : taken.piece)
        hand_feed(&loader, places, taken.memory, taken.file + at, left < taken.piece ? left : taken.piece);
    return (struct hunk_answer){(uint32_t)loader.err, loader.hunk, loader.fed, taken.memory_len};
}

static struct hunk_answer call_check(void)
{
    return answered(hand_check(taken.file, taken.file_len, taken.items, most_findings()));
}

static struct hunk_answer call_strip(void)
{
    return answered(hand_strip(taken.file, taken.file_len, taken.text, taken.file_len));
}

/* The calls of one of the six tables. */
#define CALL_ROWS(name, table) \
    static struct hunk_answer call_##name(void) \
    { \
        return answered(hand_items(table, taken.file, taken.file_len, taken.items, most_items())); \
    }

CALL_ROWS(units, HAND_UNITS)
CALL_ROWS(blocks, HAND_BLOCKS)
CALL_ROWS(symbols, HAND_SYMBOLS)
CALL_ROWS(relocations, HAND_RELOCATIONS)
CALL_ROWS(entries, HAND_ENTRIES)
CALL_ROWS(references, HAND_REFERENCES)

static struct hunk_answer call_parts(void)
{
    return answered(hand_parts(taken.file, taken.file_len, taken.items, most_items()));
}

static struct hunk_answer call_build(void)
{
    return answered(hand_build(taken.parts, taken.parts_len, taken.file, taken.file_len, taken.text, taken.text_len));
}

static struct hunk_answer call_warnings(void)
{
    return answered(
        hand_warnings(taken.file, taken.file_len, taken.room, taken.file_len / 4, taken.items, taken.file_len));
}

maker *const PLAIN_CALLS[CALLS] = {
    [TABLE] = call_table,
    [LOAD] = call_load,
    [FEED] = call_feed,
    [CHECK] = call_check,
    [STRIP] = call_strip,
    [UNITS] = call_units,
    [BLOCKS] = call_blocks,
    [SYMBOLS] = call_symbols,
    [RELOCATIONS] = call_relocations,
    [ENTRIES] = call_entries,
    [REFERENCES] = call_references,
    [PARTS] = call_parts,
    [BUILD] = call_build,
    [WARNINGS] = call_warnings,
};
