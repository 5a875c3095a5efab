/* Files with many of each part, and files as large as the program takes, through each call. Status 1
 * where an answer, or what it leaves in the caller's memory, is not what hunk.h says. */
#include "guarded.h"

#define MANY 100000
#define LARGE 67108860 /* bytes of a file */
#define CONTENT (1 << 25)
#define MEMORY (1 << 26)
#define MOST_HUNKS 65536
#define BASE UINT32_C(0x21000)
#define OFFSETS ((1 << 22) - 13) /* of a file of 16 MiB */

static struct guarded file_room = {LARGE, NULL};
static struct guarded text_room = {LARGE, NULL};
static struct guarded memory_room = {MEMORY, NULL};
static struct guarded again_room = {MEMORY, NULL};
static struct guarded row_room = {OFFSETS * sizeof(struct hunk_relocation), NULL};
static struct hunk_row rows[MOST_HUNKS];
static struct hunk_place places[MOST_HUNKS];
static uint32_t bases[MOST_HUNKS];
static struct hunk_finding findings[MANY];

/* The file that is made. */
static uint8_t *file;
static size_t len;

static uint32_t long_at(const uint8_t *bytes)
{
    return (uint32_t)bytes[0] << 24 | (uint32_t)bytes[1] << 16 | (uint32_t)bytes[2] << 8 | bytes[3];
}

/* Appends so many longwords, so often. */
static void put(size_t times, const uint32_t *longs, size_t count)
{
    for (size_t i = 0; i < times * count; i++)
        for (int shift = 24; shift >= 0; shift -= 8)
            file[len++] = (uint8_t)(longs[i % count] >> shift);
}

#define PUT(times, ...) \
    put(times, (const uint32_t[]){__VA_ARGS__}, sizeof(const uint32_t[]){__VA_ARGS__} / 4)

/* RELOC32 blocks of many groups and of many offsets: the base of hunk 0 is added to the first
 * longword so often. Then many symbols. How many bytes of them stripping leaves. */
static size_t put_lists(void)
{
    size_t from = len;
    PUT(1, 0x3EC);
    PUT(MANY, 1, 0, 0);
    PUT(1, 0, 0x3EC, MANY, 0);
    PUT(MANY, 0);
    PUT(1, 0);
    size_t kept = len - from;
    PUT(1, 0x3F0);
    PUT(MANY, 1, 0x73000000, 7);
    PUT(1, 0);
    return kept;
}

/* An EXT of many definitions, and of a symbol with many references at offset 5. */
static size_t put_entries(void)
{
    size_t from = len;
    PUT(1, 0x3EF);
    PUT(MANY, 0x1000001, 0x64000000, 7);
    PUT(1, 0x81000000, MANY);
    PUT(MANY, 5);
    PUT(1, 0);
    return len - from;
}

/* A DEBUG block and END, up to the end of a large file. */
static void fill(void)
{
    size_t count = (LARGE - len) / 4 - 3;
    PUT(1, 0x3F1, (uint32_t)count);
    PUT(count, 0);
    PUT(1, 0x3F2);
}

/* hunk_check, with so many findings, each of offset 5 in the first hunk, one right after the other,
 * hunk_strip, which leaves so many bytes, and hunk_front, which leaves all. */
static void checked(const char *name, uint32_t hunks, size_t count, size_t left)
{
    struct hunk_answer a = hunk_check(file, len, findings, MANY);
    expect(same(a, (struct hunk_answer){HUNK_OK, hunks, len, count}), name, "hunk_check");
    static const uint8_t five[] = {0, 0, 0, 5};
    for (size_t i = 0; i < count; i++)
        expect(findings[i].unit == 0 && findings[i].hunk == 0 && findings[i].offset == 5 &&
                   findings[i].fault == HUNK_FINDING_OUTSIDE_HUNK &&
                   findings[i].place == findings[0].place + 4 * i && findings[i].reserved == 0 &&
                   memcmp(file + findings[i].place, five, sizeof five) == 0, name, "a finding");
    uint8_t *text = marked(&text_room, len);
    a = hunk_strip(file, len, text, len);
    expect(same(a, (struct hunk_answer){HUNK_OK, hunks, len, left}), name, "hunk_strip");
    expect(all_marked(text + left, len - left), name, "the text after a stripped file");
    text = marked(&text_room, len);
    struct hunk_answer whole = {HUNK_OK, hunks, hunks > 0 ? len - 4 : len, len};
    expect(same(hunk_front(file, len, text, len), whole), name, "hunk_front");
    expect(memcmp(text, file, len) == 0, name, "the front of a whole file");
}

/* hunk_blocks, of blocks that stand one after the other from the first byte up to the last. */
static void blocks_listed(const char *name, struct hunk_answer all, uint64_t first, uint64_t last)
{
    struct hunk_block *table = marked(&row_room, all.count * sizeof *table);
    expect(same(hunk_blocks(file, len, table, all.count), all), name, "hunk_blocks");
    for (uint64_t i = 0; i < all.count; i++) {
        expect(table[i].place == first, name, "the place of a block");
        int is_kind = first < last && table[i].kind == long_at(file + first);
        expect(is_kind, name, "the kind of a block");
        first += table[i].bytes;
    }
    expect(first == last, name, "the end of the blocks");
}

/* hunk_symbols and hunk_relocations, of what put_lists puts from this byte on, where this many
 * relocations stand before it. */
static void lists_listed(const char *name, uint32_t hunks, uint64_t from, size_t before)
{
    struct hunk_answer all = {HUNK_OK, hunks, len, before + 2 * MANY};
    struct hunk_relocation *offsets = marked(&row_room, all.count * sizeof *offsets);
    expect(same(hunk_relocations(file, len, offsets, all.count), all), name, "hunk_relocations");
    uint64_t groups = from + 4, group = from + 20 + 12 * MANY, symbols = group + 4 * MANY + 8;
    offsets += before;
    for (uint64_t i = 0; i < 2 * MANY; i++) {
        uint64_t place = i < MANY ? groups + 12 * i + 8 : group + 4 * (i - MANY);
        struct hunk_relocation row = {place, 0, 0, 0x3EC, 4, 0, 0, 0};
        expect(memcmp(&offsets[i], &row, sizeof row) == 0, name, "a relocation");
    }
    all.count = MANY;
    struct hunk_symbol *values = marked(&row_room, MANY * sizeof *values);
    expect(same(hunk_symbols(file, len, values, MANY), all), name, "hunk_symbols");
    for (uint64_t i = 0; i < MANY; i++) {
        uint64_t place = symbols + 12 * i;
        struct hunk_symbol row = {place, 0, 0, place + 4, 1, 7, 0};
        expect(memcmp(&values[i], &row, sizeof row) == 0, name, "a symbol");
    }
}

/* hunk_parts, with so many rows of each kind, of a file in which put_lists puts what stands from
 * this byte on, where this many groups stand before it. */
static void parts_listed(const char *name, uint32_t hunks, uint64_t from, size_t before,
                         const uint64_t wanted[6])
{
    struct hunk_answer all = {HUNK_OK, hunks, len, 0};
    uint64_t met[7] = {0}, groups = from + 12, group = from + 20 + 12 * MANY;
    uint64_t symbols = group + 4 * MANY + 12;
    for (int i = 0; i < 6; i++)
        all.count += wanted[i];
    struct hunk_part *parts = marked(&row_room, all.count * sizeof *parts);
    expect(same(hunk_parts(file, len, parts, all.count), all), name, "hunk_parts");
    for (uint64_t i = 0; i < all.count; i++) {
        struct hunk_part *p = &parts[i];
        uint64_t number = met[p->what % 7]++;
        struct hunk_part row = *p;
        if (p->what == HUNK_PART_SYMBOL)
            row = (struct hunk_part){5, 0, 7, 0, symbols + 12 * number, 4, 0, 0};
        if (p->what == HUNK_PART_GROUP && number == before + MANY)
            row = (struct hunk_part){4, 0, 0, 0, 0, 0, group, MANY};
        else if (p->what == HUNK_PART_GROUP && number >= before)
            row = (struct hunk_part){4, 0, 0, 0, 0, 0, groups + 12 * (number - before), 1};
        expect(memcmp(p, &row, sizeof row) == 0, name, "a part");
    }
    for (int i = 0; i < 6; i++)
        expect(met[i + 1] == wanted[i], name, "the parts of a kind");
    uint8_t *text = marked(&again_room, len);
    struct hunk_answer built = hunk_build(parts, all.count, file, len, text, len);
    expect(same(built, (struct hunk_answer){HUNK_OK, hunks, len, len}), name, "hunk_build");
    expect(memcmp(text, file, len) == 0, name, "the file that is built again");
}

/* hunk_entries, of what put_entries puts from this byte on. */
static void entries_listed(const char *name, uint64_t from)
{
    struct hunk_answer all = {HUNK_OK, 0, len, MANY + 1};
    struct hunk_entry *entries = marked(&row_room, all.count * sizeof *entries);
    expect(same(hunk_entries(file, len, entries, all.count), all), name, "hunk_entries");
    for (uint64_t i = 0; i <= MANY; i++) {
        uint64_t place = from + 4 + 12 * i;
        struct hunk_entry row = {place, 0, 0, place + 4, 1, 0, 7, 1, 0};
        if (i == MANY)
            row = (struct hunk_entry){place, 0, 0, place + 4, 0, MANY, 0, 129, 0};
        expect(memcmp(&entries[i], &row, sizeof row) == 0, name, "an entry");
    }
    all.count = MANY;
    struct hunk_reference *references = marked(&row_room, MANY * sizeof *references);
    expect(same(hunk_references(file, len, references, MANY), all), name, "hunk_references");
    for (uint64_t i = 0; i < MANY; i++) {
        struct hunk_reference row = {MANY, from + 4 + 12 * MANY + 8 + 4 * i, 5, 4, 0};
        expect(memcmp(&references[i], &row, sizeof row) == 0, name, "a reference");
    }
}

/* The same in two pieces as by a load. */
static void streamed(const char *name, struct hunk_answer table, const uint8_t *memory)
{
    struct hunk_loader loader;
    uint8_t *again = marked(&again_room, table.count);
    size_t half = len / 2 > table.place ? len / 2 : table.place;
    struct hunk_answer a = hunk_begin(&loader, places, table.hunk, table.place, again, table.count);
    expect(same(a, table), name, "hunk_begin");
    const uint8_t *from = file + table.place, *cut = file + half;
    hunk_feed(&loader, places, table.hunk, again, table.count, from, half - table.place);
    hunk_feed(&loader, places, table.hunk, again, table.count, cut, len - half);
    a = hunk_end(&loader);
    expect(same(a, (struct hunk_answer){HUNK_OK, table.hunk, len, table.count}), name, "hunk_end");
    expect(memcmp(again, memory, table.count) == 0, name, "the memory of a stream");
}

/* hunk_table and the loads, whose memory is the same. The first longword is then this one. */
static void loaded(const char *name, struct hunk_answer table, uint32_t first)
{
    struct hunk_answer a = hunk_table(file, len, MEMORY, rows, MOST_HUNKS);
    expect(same(a, table), name, "hunk_table");
    uint32_t base = BASE;
    for (uint32_t h = 0; h < table.hunk; h++) {
        places[h] = (struct hunk_place){rows[h].word, rows[h].extra, base};
        bases[h] = base;
        base += rows[h].bytes;
    }
    struct hunk_answer all = {HUNK_OK, table.hunk, len, table.count};
    uint8_t *memory = marked(&memory_room, table.count);
    a = hunk_load_packed(file, len, BASE, memory, table.count);
    expect(same(a, all), name, "hunk_load_packed");
    expect(long_at(memory) == first, name, "the first longword");
    uint8_t *again = marked(&again_room, table.count);
    a = hunk_load(file, len, bases, table.hunk, again, table.count);
    expect(same(a, all), name, "hunk_load");
    expect(memcmp(again, memory, table.count) == 0, name, "the memory of a load");
    streamed(name, table, memory);
}

/* So many bytes, declared in 36. */
static void short_file(const char *name, uint32_t bytes)
{
    len = 0;
    PUT(1, 0x3F3, 0, 1, 0, 0, bytes / 4, 0x3EB, bytes / 4, 0x3F2);
    loaded(name, (struct hunk_answer){HUNK_OK, 1, 24, bytes}, 0);
    checked(name, 1, 0, len);
}

static void large_load_file(void)
{
    len = 0;
    PUT(1, 0x3F3, 0, 1, 0, 0, CONTENT / 4, 0x3E9, CONTENT / 4);
    PUT(CONTENT / 4, 7);
    size_t lists = len, kept = len;
    kept += put_lists();
    fill();
    expect(len == LARGE, "a large load file", "its bytes");
    loaded("a large load file", (struct hunk_answer){HUNK_OK, 1, 24, CONTENT},
           7 + 2 * MANY * BASE);
    checked("a large load file", 1, 0, kept + 4);
    blocks_listed("a large load file", (struct hunk_answer){HUNK_OK, 1, len, 6}, 24, len);
    lists_listed("a large load file", 1, lists, 0);
    parts_listed("a large load file", 1, lists, 0, (uint64_t[]){1, 0, 6, MANY + 1, MANY, 0});
}

static void many_hunks(void)
{
    struct hunk_answer table = {HUNK_OK, MOST_HUNKS, 20 + 4 * MOST_HUNKS, 4 * MOST_HUNKS};
    len = 0;
    PUT(1, 0x3F3, 0, MOST_HUNKS, 0, MOST_HUNKS - 1);
    PUT(MOST_HUNKS, 1);
    PUT(1, 0x3EB, 1, 0x3EC, 1, MOST_HUNKS - 1, 0, 0);
    size_t lists = len, kept = len;
    kept += put_lists();
    PUT(MANY, 0x3F1, 0);
    size_t after = len;
    PUT(1, 0x3F2);
    PUT(MOST_HUNKS - 1, 0x3EB, 1, 0x3F2);
    loaded("many hunks", table, 2 * MANY * BASE + BASE + 4 * (MOST_HUNKS - 1));
    checked("many hunks", MOST_HUNKS, 0, kept + len - after);
    struct hunk_answer blocks = {HUNK_OK, MOST_HUNKS, len, 6 + MANY + 2 * (MOST_HUNKS - 1)};
    blocks_listed("many hunks", blocks, table.place, len);
    lists_listed("many hunks", MOST_HUNKS, lists, 1);
    const uint64_t parts[] = {MOST_HUNKS, 0, blocks.count, MANY + 2, MANY, 0};
    parts_listed("many hunks", MOST_HUNKS, lists, 1, parts);
}

static void large_object_file(void)
{
    len = 0;
    PUT(1, 0x3E7, 0, 0x3E9, CONTENT / 4);
    PUT(CONTENT / 4, 7);
    size_t lists = len, kept = len;
    kept += put_lists();
    size_t entries = len;
    kept += put_entries();
    fill();
    expect(len == LARGE, "a large object file", "its bytes");
    checked("a large object file", 0, 0, kept + 4);
    blocks_listed("a large object file", (struct hunk_answer){HUNK_OK, 0, len, 7}, 8, len);
    lists_listed("a large object file", 0, lists, 0);
    const uint64_t parts[] = {0, 1, 7, MANY + 1, MANY, MANY + 1};
    parts_listed("a large object file", 0, lists, 0, parts);
    entries_listed("a large object file", entries);
}

/* hunk_units, of a first unit with so many hunks, and of others with none, from this byte on. */
static void units_listed(const char *name, uint64_t hunks, uint64_t from)
{
    struct hunk_answer all = {HUNK_OK, 0, len, MANY};
    struct hunk_unit *units = marked(&row_room, MANY * sizeof *units);
    expect(same(hunk_units(file, len, units, MANY), all), name, "hunk_units");
    for (uint64_t i = 0; i < MANY; i++) {
        struct hunk_unit row = {0, 8, 0, hunks, 0};
        if (i > 0)
            row = (struct hunk_unit){from + 8 * (i - 1), from + 8 * i, 0, 0, 0};
        expect(memcmp(&units[i], &row, sizeof row) == 0, name, "a unit");
    }
}

static void many_units(void)
{
    len = 0;
    PUT(1, 0x3E7, 0, 0x3EB, 2);
    size_t lists = len, kept = len;
    kept += put_lists();
    size_t entries = len;
    kept += put_entries();
    PUT(MANY, 0x3F1, 0);
    size_t after = len;
    PUT(1, 0x3F2);
    PUT(MANY - 1, 0x3EB, 1, 0x3F2);
    size_t units = len;
    PUT(MANY - 1, 0x3E7, 0);
    checked("many units", 0, MANY, kept + len - after);
    struct hunk_answer blocks = {HUNK_OK, 0, len, 6 + MANY + 2 * (MANY - 1)};
    blocks_listed("many units", blocks, 8, units);
    lists_listed("many units", 0, lists, 0);
    entries_listed("many units", entries);
    units_listed("many units", MANY, units);
}

/* A load file of 16 MiB that is one block of relocations but for 52 bytes. */
static void large_relocations(void)
{
    const char *name = "16 MiB of relocations";
    len = 0;
    PUT(1, 0x3F3, 0, 1, 0, 0, 1, 0x3EB, 1, 0x3EC, OFFSETS, 0);
    size_t first = len;
    PUT(OFFSETS + 1, 0);
    PUT(1, 0x3F2);
    struct hunk_answer all = {HUNK_OK, 1, len, OFFSETS}, few = {HUNK_NO_ROOM, 1, len, OFFSETS};
    struct hunk_relocation *table = marked(&row_room, (OFFSETS - 1) * sizeof *table);
    expect(same(hunk_relocations(file, len, table, OFFSETS - 1), few), name, "a row too few");
    expect(all_marked(table, (OFFSETS - 1) * sizeof *table), name, "rows that are too few");
    table = marked(&row_room, OFFSETS * sizeof *table);
    expect(same(hunk_relocations(file, len, table, OFFSETS), all), name, "hunk_relocations");
    for (size_t i = 0; i < OFFSETS; i++) {
        struct hunk_relocation row = {first + 4 * i, 0, 0, 0x3EC, 4, 0, 0, 0};
        expect(memcmp(&table[i], &row, sizeof row) == 0, name, "a relocation");
    }
}

int main(void)
{
    if (!make_guarded(&file_room) || !make_guarded(&text_room) || !make_guarded(&memory_room) ||
        !make_guarded(&again_room) || !make_guarded(&row_room))
        return 3;
    file = marked(&file_room, LARGE);
    short_file("16 MiB", 1 << 24);
    short_file("64 MiB", MEMORY);
    large_load_file();
    many_hunks();
    large_object_file();
    many_units();
    large_relocations();
    return failures > 0;
}
