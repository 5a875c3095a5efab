/* See careful.h: what stands in a file, item by item. One walk tests and counts, and a second one writes the rows,
 * where there are any. */
#include "careful.h"
#include "careful_passing.h"

/* Where the second walk stands, and the rows that it has written. */
struct listing {
    const uint8_t *bytes;
    size_t at;
    uint64_t unit, hunk, entry;
    void *rows;
    uint64_t count;
};

/* The next row of a listing, of this type. */
#define NEXT_ROW(type) ((struct type *)listing->rows)[listing->count++]

INLINED uint64_t list_symbols(struct listing *listing, enum counted listed)
{
    const uint8_t *bytes = listing->bytes;
    size_t at = listing->at;
    uint64_t symbols = 0;
    for (uint32_t word; (word = long_at(bytes, at)); symbols++) {
        size_t name = at + 1, value = name + (word & NAME_SIZE);
        if (listed == SYMBOLS)
            NEXT_ROW(hunk_symbol) = (struct hunk_symbol){4 * at,
                                                         listing->unit,
                                                         listing->hunk,
                                                         4 * name,
                                                         text_length(bytes + 4 * name, 4 * (value - name)),
                                                         long_at(bytes, value),
                                                         0};
        at = value + 1;
    }
    listing->at = at + 1;
    return symbols;
}

INLINED uint64_t list_groups(struct listing *listing, enum counted listed, uint32_t kind, uint32_t width)
{
    const uint8_t *bytes = listing->bytes;
    size_t at = listing->at;
    uint64_t offsets = 0;
    for (uint32_t count; (count = long_at(bytes, at++)); at += count) {
        uint32_t target = long_at(bytes, at++);
        offsets += count;
        if (listed != RELOCATIONS)
            continue;
        struct hunk_relocation *rows = (struct hunk_relocation *)listing->rows + listing->count;
        for (uint32_t i = 0; i < count; i++)
            rows[i] = (struct hunk_relocation){4 * (at + i), listing->unit, listing->hunk,          kind,
                                               width,        target,        long_at(bytes, at + i), 0};
        listing->count += count;
    }
    listing->at = at;
    return offsets;
}

INLINED void list_references(struct listing *listing, uint32_t count, uint32_t width)
{
    for (size_t i = listing->at; i < listing->at + count; i++)
        NEXT_ROW(hunk_reference) = (struct hunk_reference){listing->entry, 4 * i, long_at(listing->bytes, i), width, 0};
}

INLINED uint64_t list_entries(struct listing *listing, enum counted listed)
{
    const uint8_t *bytes = listing->bytes;
    uint64_t entries = 0;
    for (uint32_t word; (word = long_at(bytes, listing->at)); entries++) {
        uint32_t kind = word >> 24, value = 0, count = 0;
        size_t place = listing->at, name = place + 1;
        listing->at = name + (word & NAME_SIZE);
        if (defines(kind) || is_common(kind))
            value = long_at(bytes, listing->at++);
        if (refers(kind))
            count = long_at(bytes, listing->at++);
        if (listed == ENTRIES)
            NEXT_ROW(hunk_entry) = (struct hunk_entry){4 * place,
                                                       listing->unit,
                                                       listing->hunk,
                                                       4 * name,
                                                       text_length(bytes + 4 * name, 4 * (uint64_t)(word & NAME_SIZE)),
                                                       count,
                                                       value,
                                                       kind,
                                                       0};
        if (listed == REFERENCES && count)
            list_references(listing, count, width_of_reference(kind));
        listing->at += count;
        listing->entry++;
    }
    listing->at++;
    return entries;
}

/* What comes after the word of a block, and its row but for the bytes of the block. */
INLINED void list_body(struct listing *listing, enum counted listed, struct hunk_block *row)
{
    const uint8_t *bytes = listing->bytes;
    uint32_t kind = row->kind, longs, width;
    switch (kind) {
    case END:
        return;
    case BSS:
        row->memory = 4 * (uint64_t)(long_at(bytes, listing->at++) & SIZE);
        return;
    case SYMBOL:
        row->items = list_symbols(listing, listed);
        return;
    case EXT:
        row->items = list_entries(listing, listed);
        return;
    }
    if ((width = width_of(kind))) {
        row->items = list_groups(listing, listed, kind, width);
        return;
    }
    longs = long_at(bytes, listing->at++);
    row->content = 4 * listing->at;
    if (kind == CODE || kind == DATA) {
        longs &= SIZE;
        row->memory = 4 * (uint64_t)longs;
    }
    row->content_bytes = 4 * (uint64_t)longs;
    listing->at += longs;
}

INLINED void list_block(struct listing *listing, enum counted listed)
{
    size_t begins = listing->at++;
    uint32_t word = long_at(listing->bytes, begins);
    struct hunk_block row = {4 * begins, 0, listing->unit, listing->hunk, 0, 0, 0, 0, word & KIND, word >> 29, 0};
    list_body(listing, listed, &row);
    row.bytes = 4 * (listing->at - begins);
    if (listed == BLOCKS)
        NEXT_ROW(hunk_block) = row;
    listing->hunk += row.kind == END;
}

/* The hunks of the unit before are known where the next one begins. */
INLINED void list_unit(struct listing *listing, enum counted listed)
{
    size_t begins = listing->at, name = begins + 2;
    uint64_t longs = long_at(listing->bytes, begins + 1);
    if (listed == UNITS && listing->count)
        ((struct hunk_unit *)listing->rows)[listing->count - 1].hunks = listing->hunk;
    if (listed == UNITS)
        NEXT_ROW(hunk_unit) =
            (struct hunk_unit){4 * begins, 4 * name, text_length(listing->bytes + 4 * name, 4 * longs), 0, 0};
    listing->unit += begins != 0;
    listing->hunk = 0;
    listing->at = name + longs;
}

INLINED void list_file(const struct walk *walk, enum counted listed, void *rows)
{
    struct listing listing = {walk->bytes, first_block(walk), 0, 0, 0, rows, 0};
    while (listing.at < walk->at)
        if (!walk->hunks && long_at(walk->bytes, listing.at) == UNIT)
            list_unit(&listing, listed);
        else
            list_block(&listing, listed);
    if (listed == UNITS && listing.count)
        ((struct hunk_unit *)rows)[listing.count - 1].hunks = listing.hunk;
}

INLINED struct hunk_answer list(const uint8_t *bytes, uint64_t len, enum counted listed, void *rows, uint64_t room)
{
    struct walk walk = walk_of(bytes, len);
    uint32_t number = test_file(&walk, listed);
    if (number)
        return answer(number, 0, 4 * walk.at, 0);
    if (walk.counted > room)
        return answer(HUNK_NO_ROOM, walk.hunks, 4 * walk.at, walk.counted);
    if (walk.counted)
        list_file(&walk, listed, rows);
    return answer(HUNK_OK, walk.hunks, 4 * walk.at, walk.counted);
}

struct hunk_answer careful_units(const uint8_t *bytes, uint64_t len, struct hunk_unit *rows, uint64_t room)
{
    return list(bytes, len, UNITS, rows, room);
}

struct hunk_answer careful_blocks(const uint8_t *bytes, uint64_t len, struct hunk_block *rows, uint64_t room)
{
    return list(bytes, len, BLOCKS, rows, room);
}

struct hunk_answer careful_symbols(const uint8_t *bytes, uint64_t len, struct hunk_symbol *rows, uint64_t room)
{
    return list(bytes, len, SYMBOLS, rows, room);
}

struct hunk_answer careful_relocations(const uint8_t *bytes, uint64_t len, struct hunk_relocation *rows, uint64_t room)
{
    return list(bytes, len, RELOCATIONS, rows, room);
}

struct hunk_answer careful_entries(const uint8_t *bytes, uint64_t len, struct hunk_entry *rows, uint64_t room)
{
    return list(bytes, len, ENTRIES, rows, room);
}

struct hunk_answer careful_references(const uint8_t *bytes, uint64_t len, struct hunk_reference *rows, uint64_t room)
{
    return list(bytes, len, REFERENCES, rows, room);
}
