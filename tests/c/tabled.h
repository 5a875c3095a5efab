/* The six tables of what stands in a file, by their numbers, and the bytes that rows name. */
#ifndef TABLED_H
#define TABLED_H

#include "guarded.h"

#ifndef MOST_ROWS
#define MOST_ROWS 65536
#endif

/* The tables, in the order of hunk.h. */
enum { UNITS, BLOCKS, SYMBOLS, RELOCATIONS, ENTRIES, REFERENCES, TABLES };

static const size_t row_bytes[TABLES] = {
    sizeof(struct hunk_unit),       sizeof(struct hunk_block), sizeof(struct hunk_symbol),
    sizeof(struct hunk_relocation), sizeof(struct hunk_entry), sizeof(struct hunk_reference)};

/* Types of blocks. */
#define EXT_KIND 0x3EF
#define SYMBOL_KIND 0x3F0
#define END_KIND 0x3F2

/* A file as it was read, what each call answers of it, but for `count`, and its rows. */
struct listed {
    const char *name;
    const uint8_t *bytes;
    size_t len;
    struct hunk_answer of;
    void *rows[TABLES];
    uint64_t counts[TABLES];
    uint64_t next[TABLES]; /* the rows that were looked at */
    uint64_t units;        /* the units that have begun */
    uint64_t hunks;        /* the hunks that have begun, of the last unit */
    uint64_t in_unit;      /* and those that it has, by its row */
};

/* ---- The calls. */

static inline struct hunk_answer call(int table, const uint8_t *bytes, uint64_t len, void *rows,
                                      uint64_t room)
{
    switch (table) {
    case UNITS:
        return hunk_units(bytes, len, rows, room);
    case BLOCKS:
        return hunk_blocks(bytes, len, rows, room);
    case SYMBOLS:
        return hunk_symbols(bytes, len, rows, room);
    case RELOCATIONS:
        return hunk_relocations(bytes, len, rows, room);
    case ENTRIES:
        return hunk_entries(bytes, len, rows, room);
    default:
        return hunk_references(bytes, len, rows, room);
    }
}

/* Room for the rows of each table. */
static inline int make_rooms(struct guarded rooms[TABLES])
{
    int made = 1;
    for (int table = 0; table < TABLES; table++) {
        rooms[table].size = MOST_ROWS * row_bytes[table];
        made = made && make_guarded(&rooms[table]);
    }
    return made;
}

/* ---- The parts of a file. */

/* The longword at this byte of the file; 0 where it has none. */
static inline uint32_t long_at(const struct listed *f, uint64_t at)
{
    int holds = at < f->of.place && f->of.place - at >= 4;
    expect(holds, f->name, "a longword of the file");
    if (!holds)
        return 0;
    const uint8_t *b = f->bytes + at;
    return (uint32_t)b[0] << 24 | (uint32_t)b[1] << 16 | (uint32_t)b[2] << 8 | b[3];
}

/* The next row of a table. */
static inline const void *next_row(struct listed *f, int table)
{
    if (f->next[table] == f->counts[table]) {
        fprintf(stderr, "%s: fewer rows than items\n", f->name);
        exit(1);
    }
    return (const uint8_t *)f->rows[table] + f->next[table]++ * row_bytes[table];
}

/* Ends a line with so many bytes from this one on. */
static inline void print_text(const struct listed *f, uint64_t at, uint64_t len)
{
    int holds = at <= f->of.place && len <= f->of.place - at;
    expect(holds, f->name, "a name of the file");
    for (uint64_t i = 0; holds && i < len; i++) {
        uint8_t byte = f->bytes[at + i];
        if (byte < 0x20 || byte > 0x7E || byte == '\\')
            printf("\\x%02x", byte);
        else
            putchar(byte);
    }
    putchar('\n');
}

/* The bytes before the first zero byte of these. */
static inline uint64_t text_len(const struct listed *f, uint64_t at, uint64_t len)
{
    uint64_t i = 0;
    while (i < len && at + i < f->of.place && f->bytes[at + i] != 0)
        i++;
    return i;
}

/* Whether this is the name of an item at this byte, and where the item goes on after it. */
static inline uint64_t name_end(const struct listed *f, uint64_t place, uint64_t name, uint64_t len)
{
    uint64_t room = 4 * (uint64_t)(long_at(f, place) & 0xFFFFFF);
    expect(name == place + 4 && len == text_len(f, name, room), f->name, "a name");
    return place + 4 + room;
}

#endif
