/* See calls.h: the calls of the library. */
#include "calls.h"

static struct hunk_answer call_table(void)
{
    return hunk_table(taken.file, taken.file_len, UINT64_MAX, taken.rows, MOST_ROWS);
}

static struct hunk_answer call_load(void)
{
    return hunk_load_packed(taken.file, taken.file_len, BASE, taken.memory, taken.memory_len);
}

static struct hunk_answer call_load_at(void)
{
    return hunk_load_at(taken.file, taken.file_len, taken.bases, taken.table.hunk, BASE, taken.memory, taken.apart_len);
}

static struct hunk_answer call_feed(void)
{
    struct hunk_loader loader;
    hunk_begin(&loader, taken.places, taken.table.hunk, taken.table.place, taken.memory, taken.memory_len);
    for (uint64_t at = taken.table.place, left; (left = taken.file_len - at);
         at += left < taken.piece ? left : taken.piece)
        hunk_feed(&loader, taken.places, taken.table.hunk, taken.memory, taken.memory_len, taken.file + at,
                  left < taken.piece ? left : taken.piece);
    return hunk_end(&loader);
}

static struct hunk_answer call_check(void)
{
    return hunk_check(taken.file, taken.file_len, taken.items, most_findings());
}

static struct hunk_answer call_strip(void)
{
    return hunk_strip(taken.file, taken.file_len, taken.text, taken.file_len);
}

static struct hunk_answer call_plain(void)
{
    return hunk_plain(taken.file, taken.file_len, taken.text, 2 * taken.file_len);
}

static struct hunk_answer call_front(void)
{
    return hunk_front(taken.file, taken.file_len, taken.text, 4 * taken.file_len);
}

static struct hunk_answer call_input_place(void)
{
    return (struct hunk_answer){0, 0, 0,
                                hunk_input_place(taken.file, taken.file_len, taken.file_len - taken.file_len / 8)};
}

/* The calls of one of the six tables. */
#define CALL_ROWS(name) \
    static struct hunk_answer call_##name(void) \
    { \
        return hunk_##name(taken.file, taken.file_len, taken.items, most_items()); \
    }

CALL_ROWS(units)
CALL_ROWS(blocks)
CALL_ROWS(symbols)
CALL_ROWS(relocations)
CALL_ROWS(entries)
CALL_ROWS(references)
CALL_ROWS(parts)

static struct hunk_answer call_build(void)
{
    return hunk_build(taken.parts, taken.parts_len, taken.file, taken.file_len, taken.text,
                      taken.file_len + 16 * taken.parts_len + 20);
}

static struct hunk_answer call_warnings(void)
{
    return hunk_warnings(taken.file, taken.file_len, taken.room, taken.file_len / 4, taken.items, taken.file_len);
}

maker *const library_calls[CALLS] = {
    [TABLE] = call_table,
    [LOAD] = call_load,
    [LOAD_AT] = call_load_at,
    [FEED] = call_feed,
    [CHECK] = call_check,
    [STRIP] = call_strip,
    [PLAIN] = call_plain,
    [FRONT] = call_front,
    [INPUT_PLACE] = call_input_place,
    [UNITS] = call_units,
    [BLOCKS] = call_blocks,
    [SYMBOLS] = call_symbols,
    [RELOCATIONS] = call_relocations,
    [ENTRIES] = call_entries,
    [REFERENCES] = call_references,
    [PARTS] = call_parts,
    [BUILD] = call_build,
    [WARNINGS] = call_warnings,
};
