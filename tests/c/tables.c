/* What stands in files, item by item, in the words of `hunkinfo show`: tables FILE.. The lines are
 * made of the six tables, and each row is held against the bytes of the file that it names, block
 * by block. Status 1 where an answer, or what it leaves in the caller's memory, is not what hunk.h
 * says. */
#include "tabled.h"

static struct guarded file_bytes = {1 << 20, NULL};
static struct guarded row_room[TABLES];
static struct guarded again_room;
static struct hunk_row load_rows[MOST_ROWS];

/* ---- The calls. */

/* A call without rows, with just as many as there are items, with one fewer, and with more. */
static void tabulate(struct listed *f, int table)
{
    size_t size = row_bytes[table];
    struct hunk_answer asked = call(table, f->bytes, f->len, NULL, 0);
    uint64_t count = asked.count;
    struct hunk_answer all = {HUNK_OK, f->of.hunk, f->of.place, count}, few = all;
    few.number = HUNK_NO_ROOM;
    expect(same(asked, count == 0 ? all : few), f->name, "a table without rows");
    uint8_t *rows = marked(&row_room[table], count * size), *again;
    expect(same(call(table, f->bytes, f->len, rows, count), all), f->name, "a table");
    if (count > 0) {
        again = marked(&again_room, (count - 1) * size);
        struct hunk_answer small = call(table, f->bytes, f->len, again, count - 1);
        expect(same(small, few), f->name, "a row too few");
        expect(all_marked(again, (count - 1) * size), f->name, "rows that are too few");
    }
    again = marked(&again_room, (count + AFTER) * size);
    struct hunk_answer more = call(table, f->bytes, f->of.place, again, count + AFTER);
    expect(same(more, all), f->name, "a table of the file alone");
    expect(memcmp(again, rows, count * size) == 0, f->name, "the rows of two tables");
    expect(all_marked(again + count * size, AFTER * size), f->name, "rows after");
    f->rows[table] = rows;
    f->counts[table] = count;
}

/* All calls refuse what is no file for the same. */
static void refuse(const struct listed *f, int table)
{
    size_t room = AFTER * row_bytes[table];
    uint8_t *rows = marked(&again_room, room);
    expect(same(call(table, f->bytes, f->len, NULL, 0), f->of), f->name, "no file, without rows");
    expect(same(call(table, f->bytes, f->len, rows, AFTER), f->of), f->name, "no file");
    expect(all_marked(rows, room), f->name, "rows after a refusal");
}

/* NULL is good for no bytes and for no rows. */
static void call_without_bytes(void)
{
    static const struct hunk_answer none = {HUNK_TRUNCATED, 0, 0, 0};
    for (int table = 0; table < TABLES; table++)
        expect(same(call(table, NULL, 0, NULL, 0), none), "no bytes", "a table");
    expect(same(hunk_check(NULL, 0, NULL, 0), none), "no bytes", "a check");
    expect(same(hunk_strip(NULL, 0, NULL, 0), none), "no bytes", "a strip");
    expect(same(hunk_parts(NULL, 0, NULL, 0), none), "no bytes", "parts");
    expect(same(hunk_build(NULL, 0, NULL, 0, NULL, 0), none), "no rows", "a build");
    expect(same(hunk_warnings(NULL, 0, NULL, 0, NULL, 0), none), "no bytes", "warnings");
    /* A header has six longwords at least. */
    static const struct hunk_answer header = {HUNK_TRUNCATED, 0, 0, 24};
    expect(same(hunk_table(NULL, 0, 0, NULL, 0), header), "no bytes", "the table of a header");
    expect(same(hunk_load(NULL, 0, NULL, 0, NULL, 0), none), "no bytes", "a load");
    expect(same(hunk_load_packed(NULL, 0, 0, NULL, 0), none), "no bytes", "a packed load");
    static const struct hunk_answer name = {HUNK_NO_ROOM, 0, 0, sizeof "Truncated" - 1};
    expect(same(hunk_reason(HUNK_TRUNCATED, NULL, 0), name), "no text", "the name of a reason");
    static const struct hunk_answer strange = {HUNK_STRANGE, 0, 0, 0};
    struct hunk_loader loader;
    expect(same(hunk_begin(&loader, NULL, 0, 24, NULL, 0), strange), "no places", "a loader");
    expect(same(hunk_feed(&loader, NULL, 0, NULL, 0, NULL, 0), strange), "no piece", "a loader");
}

/* ---- The items of a block, which each function prints; it gives the byte after them. */

static uint64_t print_symbols(struct listed *f, const struct hunk_block *b)
{
    uint64_t at = b->place + 4;
    for (uint64_t i = 0; i < b->items; i++) {
        const struct hunk_symbol *s = next_row(f, SYMBOLS);
        expect(s->place == at && s->unit == b->unit && s->hunk == b->hunk, f->name,
               "where a symbol stands");
        at = name_end(f, at, s->name, s->name_bytes);
        expect(s->value == long_at(f, at) && s->reserved == 0, f->name, "a symbol");
        printf("    0x%08" PRIx32 " ", s->value);
        print_text(f, s->name, s->name_bytes);
        at += 4;
    }
    return at;
}

static uint64_t print_relocations(struct listed *f, const struct hunk_block *b, uint32_t width)
{
    uint64_t at = b->place + 4;
    uint32_t left = 0, target = 0;
    for (uint64_t i = 0; i < b->items; i++) {
        if (left == 0) {
            left = long_at(f, at);
            target = long_at(f, at + 4);
            at += 8;
        }
        const struct hunk_relocation *r = next_row(f, RELOCATIONS);
        expect(r->place == at && r->unit == b->unit && r->hunk == b->hunk, f->name,
               "where a relocation stands");
        expect(r->kind == b->kind && r->width == width && r->target == target &&
                   r->offset == long_at(f, at) && r->reserved == 0, f->name, "a relocation");
        printf("    %" PRIu32 " 0x%08" PRIx32 "\n", r->target, r->offset);
        at += 4;
        left--;
    }
    expect(left == 0, f->name, "the relocations of a group");
    return at;
}

/* The references of the last entry, from their number on. */
static uint64_t print_references(struct listed *f, const struct hunk_entry *e, uint64_t at)
{
    static const uint32_t widths[] = {4, 4, 2, 1, 4, 2, 1, 4, 4, 2, 1};
    at += 4;
    for (uint64_t i = 0; i < e->references; i++, at += 4) {
        const struct hunk_reference *r = next_row(f, REFERENCES);
        expect(r->entry == f->next[ENTRIES] - 1 && r->place == at, f->name,
               "where a reference stands");
        expect(r->offset == long_at(f, at) && r->width == widths[(e->kind - 129) % 11] &&
                   r->reserved == 0, f->name, "a reference");
        printf("      0x%08" PRIx32 "\n", r->offset);
    }
    return at;
}

/* An entry that goes on at this byte after its name. */
static uint64_t print_entry(struct listed *f, const struct hunk_entry *e, uint64_t at)
{
    static const char *const definitions[] = {"SYMB", "DEF", "ABS"};
    static const char *const references[] = {
        "REF32",    "COMMON",    "REF16",    "REF8",   "DEXT32", "DEXT16", "DEXT8",
        "RELREF32", "RELCOMMON", "ABSREF16", "ABSREF8"};
    int refers = e->kind > 2, is_common = e->kind == 130 || e->kind == 137;
    uint32_t value = !refers || is_common ? long_at(f, at) : 0;
    expect(e->value == value, f->name, "the value of an entry");
    at += !refers || is_common ? 4 : 0;
    expect(e->references == (refers ? long_at(f, at) : 0), f->name, "the number of references");
    printf("    %s ", refers ? references[(e->kind - 129) % 11] : definitions[e->kind]);
    if (!refers)
        printf("0x%08" PRIx32 " ", e->value);
    if (is_common)
        printf("%" PRIu32 " ", e->value);
    if (refers)
        printf("%" PRIu64 " ", e->references);
    print_text(f, e->name, e->name_bytes);
    return refers ? print_references(f, e, at) : at;
}

static uint64_t print_entries(struct listed *f, const struct hunk_block *b)
{
    uint64_t at = b->place + 4;
    for (uint64_t i = 0; i < b->items; i++) {
        const struct hunk_entry *e = next_row(f, ENTRIES);
        expect(e->place == at && e->unit == b->unit && e->hunk == b->hunk, f->name,
               "where an entry stands");
        expect(e->kind == long_at(f, at) >> 24 && e->reserved == 0, f->name,
               "the type of an entry");
        at = print_entry(f, e, name_end(f, at, e->name, e->name_bytes));
    }
    return at;
}

/* ---- Blocks. */

/* What a block holds after its word: lists up to OFFSETS, a size from A_SIZE on, and from CONTENT
 * on so many longwords after it. */
enum holds { ITS_SYMBOLS, ITS_ENTRIES, OFFSETS, NOTHING, A_SIZE, CONTENT, DATA, A_NAME };

/* The last one stands for all others. */
static const struct block_kind {
    uint32_t kind;
    const char *name;
    enum holds holds;
    uint32_t width; /* of what offsets relocate */
} block_kinds[] = {
    {0x3E8, "NAME", A_NAME, 0},        {0x3E9, "CODE", CONTENT, 0},
    {0x3EA, "DATA", CONTENT, 0},       {0x3EB, "BSS", A_SIZE, 0},
    {0x3EC, "RELOC32", OFFSETS, 4},    {0x3ED, "RELOC16", OFFSETS, 2},
    {0x3EE, "RELOC8", OFFSETS, 1},     {EXT_KIND, "EXT", ITS_ENTRIES, 0},
    {0x3F1, "DEBUG", DATA, 0},         {SYMBOL_KIND, "SYMBOL", ITS_SYMBOLS, 0},
    {END_KIND, "END", NOTHING, 0},     {0x3F7, "DREL32", OFFSETS, 4},
    {0x3F8, "DREL16", OFFSETS, 2},     {0x3F9, "DREL8", OFFSETS, 1},
    {0x3FD, "RELRELOC32", OFFSETS, 4}, {0x3FE, "ABSRELOC16", OFFSETS, 2},
    {0, "ADVISORY", DATA, 0}};

static const struct block_kind *kind_of(const struct hunk_block *b)
{
    const struct block_kind *k = block_kinds;
    while (k->kind != 0 && k->kind != b->kind)
        k++;
    return k;
}

/* Whether the numbers of a block are those that stand in the file. */
static void check_block(const struct listed *f, const struct hunk_block *b,
                        const struct block_kind *k)
{
    uint32_t word = long_at(f, b->place);
    expect(b->kind == (word & 0x1FFFFFFF) && b->flags == word >> 29, f->name, "a block word");
    uint64_t size = k->holds >= A_SIZE ? long_at(f, b->place + 4) : 0;
    int in_memory = k->holds == A_SIZE || k->holds == CONTENT, in_file = k->holds >= CONTENT;
    size = 4 * (in_memory ? size & 0x3FFFFFFF : size);
    expect(b->content == (in_file ? b->place + 8 : 0), f->name, "where a content stands");
    expect(b->content_bytes == (in_file ? size : 0), f->name, "the bytes of a content");
    expect(b->memory == (in_memory ? size : 0) && b->reserved == 0, f->name, "the bytes in memory");
    if (k->holds > OFFSETS)
        expect(b->items == 0, f->name, "items of a block that has none");
    else
        expect(long_at(f, b->place + b->bytes - 4) == 0, f->name, "the end of a list");
}

/* The line of a block. */
static void print_block(const struct listed *f, const struct hunk_block *b,
                        const struct block_kind *k)
{
    if (k->kind == 0)
        printf("  ADVISORY %" PRIu32 " %" PRIu64 " bytes", b->kind, b->content_bytes);
    else
        printf("  %s%s", k->name, b->flags & 1 ? " advisory" : "");
    printf("%s%s", b->flags & 2 ? " chip" : "", b->flags & 4 ? " fast" : "");
    if (k->holds == A_NAME) {
        printf(" ");
        print_text(f, b->content, text_len(f, b->content, b->content_bytes));
    } else if (k->kind == 0 || k->holds == NOTHING) {
        printf("\n");
    } else if (k->holds > NOTHING) {
        printf(" %" PRIu64 " bytes\n", k->holds == DATA ? b->content_bytes : b->memory);
    } else {
        printf(" %" PRIu64 "\n", b->items);
    }
}

/* The lines of what a block holds, and the byte after it. */
static uint64_t print_items(struct listed *f, const struct hunk_block *b,
                            const struct block_kind *k)
{
    switch (k->holds) {
    case ITS_SYMBOLS:
        return print_symbols(f, b) + 4;
    case ITS_ENTRIES:
        return print_entries(f, b) + 4;
    case OFFSETS:
        return print_relocations(f, b, k->width) + 4;
    case NOTHING:
        return b->place + 4;
    default:
        return b->place + 8 + b->content_bytes;
    }
}

/* ---- Hunks and units. */

/* The units of an object file whose words stand from this byte on up to that one. */
static void print_units(struct listed *f, uint64_t at, uint64_t end)
{
    while (at < end && f->of.hunk == 0 && long_at(f, at) == 0x3E7) {
        uint64_t len = 4 * (uint64_t)long_at(f, at + 4);
        const struct hunk_unit *u = next_row(f, UNITS);
        expect(u->place == at && u->name == at + 8 && u->reserved == 0, f->name,
               "where a unit stands");
        expect(u->name_bytes == text_len(f, u->name, len), f->name, "the name of a unit");
        printf("unit %" PRIu64 " ", f->units);
        print_text(f, u->name, u->name_bytes);
        expect(f->hunks == f->in_unit, f->name, "the hunks of a unit");
        f->units++;
        f->hunks = 0;
        f->in_unit = u->hunks;
        at += 8 + len;
    }
    expect(at == end, f->name, "the place of a block");
}

static void print_hunk(const struct listed *f, const struct hunk_block *b)
{
    static const char *const memories[] = {"any", "chip", "fast", "attributes"};
    uint64_t bytes = b->memory;
    if (f->of.hunk > 0) {
        struct hunk_row row = load_rows[b->hunk % MOST_ROWS];
        const char *memory = memories[row.memory & 3];
        printf("hunk %" PRIu64 " %" PRIu32 " bytes %s", b->hunk, row.bytes, memory);
        if (row.memory == 3)
            printf(" 0x%08" PRIx32, row.extra);
        printf("\n");
        return;
    }
    for (; b->kind != END_KIND; b++)
        bytes += b[1].memory;
    printf("hunk %" PRIu64 " %" PRIu64 " bytes\n", b->hunk, bytes);
}

/* The lines of all blocks, which stand one after the other, from this byte on. */
static void print_blocks(struct listed *f, uint64_t at)
{
    int opens = 1;
    for (uint64_t i = 0; i < f->counts[BLOCKS]; i++) {
        const struct hunk_block *b = next_row(f, BLOCKS);
        const struct block_kind *kind = kind_of(b);
        if (opens) {
            print_units(f, at, b->place);
            print_hunk(f, b);
            f->hunks++;
        } else {
            expect(b->place == at, f->name, "the place of a block");
        }
        expect(b->unit + 1 == f->units && b->hunk + 1 == f->hunks, f->name, "the hunk of a block");
        check_block(f, b, kind);
        print_block(f, b, kind);
        at = print_items(f, b, kind);
        expect(at == b->place + b->bytes, f->name, "the bytes of a block");
        opens = b->kind == END_KIND;
    }
    expect(opens, f->name, "the end of the last hunk");
    print_units(f, at, f->of.place);
    for (int table = 0; table < TABLES; table++)
        expect(f->next[table] == f->counts[table], f->name, "more rows than items");
}

/* ---- Files. */

static void print_listing(struct listed *f)
{
    if (f->of.hunk == 0) {
        expect(f->of.place == f->len, f->name, "bytes of an object file");
        printf("object file %" PRIu64 " units\n", f->counts[UNITS]);
        print_blocks(f, 0);
        expect(f->hunks == f->in_unit, f->name, "the hunks of the last unit");
        return;
    }
    struct hunk_answer table = hunk_table(f->bytes, f->len, UINT64_MAX, load_rows, MOST_ROWS);
    printf("load file %" PRIu32 " hunks %" PRIu64 " bytes\n", f->of.hunk, table.count);
    f->units = 1;
    print_blocks(f, table.place);
    expect(f->hunks == table.hunk && f->of.hunk == table.hunk, f->name, "hunks of a load file");
    if (f->len > f->of.place)
        printf("rest %" PRIu64 " bytes\n", f->len - f->of.place);
}

static void list(struct listed *f)
{
    struct hunk_finding none;
    f->of = hunk_check(f->bytes, f->len, &none, 0);
    if (f->of.number != HUNK_OK && f->of.number != HUNK_NO_ROOM) {
        for (int table = 0; table < TABLES; table++)
            refuse(f, table);
        print_refusal(f->of);
        return;
    }
    for (int table = 0; table < TABLES; table++)
        tabulate(f, table);
    print_listing(f);
}

int main(int argc, char **argv)
{
    again_room.size = (MOST_ROWS + AFTER) * sizeof(struct hunk_block);
    if (argc < 2 || !make_guarded(&file_bytes) || !make_guarded(&again_room) ||
        !make_rooms(row_room))
        return 3;
    call_without_bytes();
    for (int i = 1; i < argc; i++) {
        struct listed f = {0};
        f.name = argv[i];
        f.bytes = read_file(&file_bytes, f.name, &f.len);
        printf("== %s\n", f.name);
        list(&f);
    }
    return failures > 0;
}
