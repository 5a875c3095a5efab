/* See calls.h: the calls of the loader that keeps the library's promise. */
#include "calls.h"
#include "careful.h"

static struct hunk_answer call_table(void)
{
    return careful_table(taken.file, taken.file_len, UINT64_MAX, taken.rows, MOST_ROWS);
}

static struct hunk_answer call_load(void)
{
    return careful_load_packed(taken.file, taken.file_len, BASE, taken.memory, taken.memory_len);
}

static struct hunk_answer call_load_at(void)
{
    return careful_load_at(taken.file, taken.file_len, taken.bases, taken.table.hunk, BASE, taken.memory,
                           taken.apart_len);
}

static struct hunk_answer call_feed(void)
{
    struct hunk_loader loader;
    careful_begin(&loader, taken.places, taken.table.hunk, taken.table.place, taken.memory, taken.memory_len);
    for (uint64_t at = taken.table.place, left; (left = taken.file_len - at);
         at += left < taken.piece ? left : taken.piece)
        careful_feed(&loader, taken.places, taken.table.hunk, taken.memory, taken.memory_len, taken.file + at,
                     left < taken.piece ? left : taken.piece);
    return careful_end(&loader);
}

static struct hunk_answer call_check(void)
{
    return careful_check(taken.file, taken.file_len, taken.items, most_findings());
}

static struct hunk_answer call_strip(void)
{
    return careful_strip(taken.file, taken.file_len, taken.text, taken.file_len);
}

static struct hunk_answer call_plain(void)
{
    return careful_plain(taken.file, taken.file_len, taken.text, 2 * taken.file_len);
}

static struct hunk_answer call_front(void)
{
    return careful_front(taken.file, taken.file_len, taken.text, 4 * taken.file_len);
}

static struct hunk_answer call_input_place(void)
{
    uint64_t sought = taken.file_len - taken.file_len / 8;
    return (struct hunk_answer){0, 0, 0, careful_input_place(taken.file, taken.file_len, sought)};
}

/* The calls of one of the six tables. */
#define CALL_ROWS(name) \
    static struct hunk_answer call_##name(void) \
    { \
        return careful_##name(taken.file, taken.file_len, taken.items, most_items()); \
    }

CALL_ROWS(units)
CALL_ROWS(blocks)
CALL_ROWS(symbols)
CALL_ROWS(relocations)
CALL_ROWS(entries)
CALL_ROWS(references)

maker *const CAREFUL_CALLS[CALLS] = {
    [TABLE] = call_table,
    [LOAD] = call_load,
    [LOAD_AT] = call_load_at,
    [FEED] = call_feed,
    [CHECK] = call_check,
    [STRIP] = call_strip,
    [PLAIN] = call_plain,
    [FRONT] = call_front,
    [INPUT_PLACE] = call_input_place,
    [UNITS] = call_units,
    [BLOCKS] = call_blocks,
    [SYMBOLS] = call_symbols,
    [RELOCATIONS] = call_relocations,
    [ENTRIES] = call_entries,
    [REFERENCES] = call_references,
};
