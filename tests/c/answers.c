/* What the library answers on files, in the words of `hunkinfo relocate`: answers BASE FILE..
 * Status 1 where an answer, or what it leaves in the caller's memory, is not what hunk.h says. */
#include "guarded.h"

#define BUDGET (UINT64_C(1) << 24) /* that of the program */
#define MOST_HUNKS 65536

static struct guarded file_bytes = {1 << 20, NULL};
static struct guarded row_room = {(MOST_HUNKS + AFTER) * sizeof(struct hunk_row), NULL};
static struct guarded front_room = {PAGE, NULL};
static struct guarded base_room = {MOST_HUNKS * 4, NULL};
static struct guarded memory_room = {(1 << 24) + PAGE, NULL};
static struct guarded again_room = {(1 << 24) + PAGE, NULL};

static void print_hunk(uint32_t h, uint64_t base, const uint8_t *bytes, uint32_t len)
{
    printf("hunk %" PRIu32 " base 0x%08" PRIx64 " %" PRIu32 " bytes\n", h, base, len);
    for (uint32_t i = 0; i < len; i++)
        printf("%s%02x%s", i % 16 == 0 ? "  " : "", bytes[i],
               i % 16 == 15 || i + 1 == len ? "\n" : "");
}

/* A file as it was read, its table, and the address of its first hunk. */
struct loaded {
    const char *name;
    const uint8_t *bytes;
    size_t len;
    struct hunk_answer table;
    const struct hunk_row *rows;
    uint32_t base;
};

/* How many longwords a header has at least that begins with so many, which belong to this one: 6, and
 * from the third on those up to the table, and one for each hunk whose row is not whole. */
static size_t least_longs(const uint8_t *bytes, size_t longs)
{
    if (longs < 3)
        return 6;
    size_t hunks = (size_t)bytes[8] << 24 | bytes[9] << 16 | bytes[10] << 8 | bytes[11];
    size_t at = 5;
    while (at < longs) {
        at += bytes[4 * at] >> 6 == 3 ? 2 : 1;
        hunks--;
    }
    return at + hunks;
}

/* Each first part of a header: how much is asked for; and a header that is read as it is asked for. */
static void cut_headers(const struct loaded *f)
{
    size_t header = f->table.place, len = 0;
    for (size_t cut = 0; cut < header && header <= PAGE; cut++) {
        uint8_t *front = marked(&front_room, cut);
        memcpy(front, f->bytes, cut);
        struct hunk_answer a = hunk_table(front, cut, BUDGET, NULL, 0);
        struct hunk_answer more = {HUNK_TRUNCATED, 0, cut / 4 * 4,
                                   4 * least_longs(front, cut / 4) - cut};
        expect(same(a, more) && a.count > 0 && cut + a.count <= header, f->name, "a header that is cut");
    }
    while (len < header)
        len += hunk_table(f->bytes, len, BUDGET, NULL, 0).count;
    expect(len == header, f->name, "a header as it is asked for");
}

/* The table of a file, asked for without rows and with just as many as it has. */
static int read_table(struct loaded *f)
{
    struct hunk_row *rows = marked(&row_room, 0);
    f->table = hunk_table(f->bytes, f->len, BUDGET, rows, 0);
    if (f->table.number != HUNK_NO_ROOM) {
        expect(f->table.number != HUNK_OK, f->name, "a table without rows");
        return 0;
    }
    f->table.number = HUNK_OK;
    rows = marked(&row_room, f->table.hunk * sizeof *rows);
    f->rows = rows;
    struct hunk_answer told = hunk_table(f->bytes, f->len, BUDGET, rows, f->table.hunk);
    expect(same(told, f->table), f->name, "hunk_table with and without rows");
    cut_headers(f);
    uint64_t sum = 0;
    for (uint32_t h = 0; h < f->table.hunk; h++) {
        sum += rows[h].bytes;
        expect(rows[h].bytes == 4 * (rows[h].word & 0x3FFFFFFF), f->name, "declared bytes");
        expect(rows[h].memory == rows[h].word >> 30, f->name, "memory");
        expect(rows[h].memory == 3 || rows[h].extra == 0, f->name, "attributes");
    }
    expect(sum == f->table.count, f->name, "the sum of the rows");
    rows = marked(&row_room, (f->table.hunk + AFTER) * sizeof *rows);
    told = hunk_table(f->bytes, f->table.place, sum, rows, f->table.hunk + AFTER);
    expect(same(told, f->table), f->name, "hunk_table of the header alone");
    expect(all_marked(rows + f->table.hunk, AFTER * sizeof *rows), f->name, "rows after");
    f->rows = rows;
    return 1;
}

/* hunk_load at the bases of a packed load, which answered this and left this memory. */
static void load_listed(const struct loaded *f, struct hunk_answer packed, const uint8_t *memory)
{
    uint32_t hunks = f->table.hunk;
    uint32_t *bases = marked(&base_room, hunks * sizeof *bases);
    uint64_t at = f->base;
    for (uint32_t h = 0; h < hunks; h++) {
        bases[h] = (uint32_t)at;
        at += f->rows[h].bytes;
    }
    size_t room = f->table.count;
    uint8_t *again = marked(&again_room, room);
    struct hunk_answer listed = hunk_load(f->bytes, f->len, bases, hunks, again, room);
    expect(same(listed, packed), f->name, "hunk_load and hunk_load_packed");
    expect(memcmp(again, memory, room) == 0, f->name, "the memory of the two");

    again = marked(&again_room, room);
    struct hunk_answer unplaced = hunk_load(f->bytes, f->len, bases, hunks - 1, again, room);
    struct hunk_answer no_base = {HUNK_NO_BASE, hunks - 1, f->table.place, 0};
    expect(same(unplaced, no_base), f->name, "where a base is missing");
    expect(all_marked(again, room), f->name, "memory where a base is missing");
    /* Of the two HUNK_NO_ROOM comes first. */
    for (uint32_t missing = 0; room > 0 && missing < 2; missing++) {
        again = marked(&again_room, room - 1);
        struct hunk_answer small = hunk_load(f->bytes, f->len, bases, hunks - missing, again, room - 1);
        struct hunk_answer no_room = {HUNK_NO_ROOM, hunks, f->table.place, room};
        expect(same(small, no_room), f->name, "where there is no room");
        expect(all_marked(again, room - 1), f->name, "memory where there is no room");
    }
}

static void answers(struct loaded *f)
{
    if (!read_table(f)) {
        print_refusal(f->table);
        return;
    }
    size_t room = f->table.count + AFTER;
    uint8_t *memory = marked(&memory_room, room);
    struct hunk_answer a = hunk_load_packed(f->bytes, f->len, f->base, memory, room);
    if (a.number != HUNK_OK) {
        expect(all_marked(memory, room), f->name, "memory after a refusal");
        print_refusal(a);
        return;
    }
    expect(all_marked(memory + f->table.count, AFTER), f->name, "memory after the hunks");
    expect(a.hunk == f->table.hunk && a.count == f->table.count, f->name, "what was loaded");
    expect(a.place >= f->table.place && a.place <= f->len, f->name, "bytes of the file");
    uint64_t at = 0;
    for (uint32_t h = 0; h < a.hunk; h++) {
        print_hunk(h, f->base + at, memory + at, f->rows[h].bytes);
        at += f->rows[h].bytes;
    }
    load_listed(f, a, memory);
    /* All of the file is needed, and no byte after it. */
    uint8_t *again = marked(&again_room, room);
    struct hunk_answer whole = hunk_load_packed(f->bytes, a.place, f->base, again, room);
    expect(same(whole, a), f->name, "the file alone");
    again = marked(&again_room, room);
    struct hunk_answer cut = hunk_load_packed(f->bytes, a.place - 1, f->base, again, room);
    struct hunk_answer short_of = {HUNK_TRUNCATED, 0, a.place - 4, 0};
    expect(same(cut, short_of), f->name, "the file without its last byte");
    expect(all_marked(again, room), f->name, "memory of a file that is cut");
}

int main(int argc, char **argv)
{
    if (argc < 3 || !make_guarded(&file_bytes) || !make_guarded(&row_room) ||
        !make_guarded(&base_room) || !make_guarded(&memory_room) || !make_guarded(&again_room) ||
        !make_guarded(&front_room))
        return 3;
    for (int i = 2; i < argc; i++) {
        struct loaded f = {argv[i], NULL, 0, {0, 0, 0, 0}, NULL, 0};
        f.bytes = read_file(&file_bytes, f.name, &f.len);
        f.base = (uint32_t)strtoul(argv[1], NULL, 16);
        printf("== %s\n", f.name);
        answers(&f);
    }
    return failures > 0;
}
