/* What the library finds in files and leaves of them, in the words of `hunkinfo validate` and
 * `hunkinfo rewrite --strip`: checks OUT FILE.., where the stripped files go into the folder OUT.
 * Status 1 where an answer, or what it leaves in the caller's memory, is not what hunk.h says. */
#include "tabled.h"

static struct guarded file_bytes = {1 << 20, NULL};
static struct guarded row_room = {(MOST_ROWS + AFTER) * sizeof(struct hunk_finding), NULL};
static struct guarded text_room = {(1 << 20) + AFTER, NULL};
static struct guarded again_room = {(1 << 20) + AFTER, NULL};
static struct guarded table_room[TABLES];

/* A file as it was read, and what both calls answer of it, but for `number` and `count`. */
struct checked {
    const char *name;
    const uint8_t *bytes;
    size_t len;
    struct hunk_answer of;
};

static struct hunk_answer answer_of(const struct checked *f, uint32_t number, uint64_t count)
{
    struct hunk_answer a = {number, f->of.hunk, f->of.place, count};
    return a;
}

static void print_finding(const struct checked *f, struct hunk_finding row)
{
    int target = row.fault == HUNK_FINDING_BAD_TARGET;
    expect(target || row.fault == HUNK_FINDING_OUTSIDE_HUNK, f->name, "what is wrong");
    expect(row.reserved == 0, f->name, "a reserved number");
    printf("unit %" PRIu64 " hunk %" PRIu64 " offset 0x%08" PRIx32 " %s\n", row.unit, row.hunk,
           row.offset, target ? "BadTarget" : "OutsideHunk");
}

/* The last lines: of an object file without the number of its units, which no call tells. */
static void print_summary(const struct checked *f, uint64_t findings)
{
    if (f->of.hunk == 0) {
        expect(f->of.place == f->len, f->name, "bytes of an object file");
        printf("object file %" PRIu64 " findings\n", findings);
        return;
    }
    struct hunk_row none;
    struct hunk_answer table = hunk_table(f->bytes, f->len, UINT64_MAX, &none, 0);
    expect(table.hunk == f->of.hunk && findings == 0, f->name, "hunks of a load file");
    printf("load file %" PRIu32 " hunks %" PRIu64 " bytes\n", f->of.hunk, table.count);
    if (f->len > f->of.place)
        printf("rest %" PRIu64 " bytes\n", f->len - f->of.place);
}

/* ---- The findings once more, by the rows of the tables. */

/* Findings, and how many of them were looked at. */
struct found {
    const struct hunk_finding *rows;
    uint64_t count;
    uint64_t next;
};

/* The next finding has to be this. */
static void want(struct found *found, const struct listed *f, struct hunk_finding wanted)
{
    int is_it = found->next < found->count &&
                memcmp(&found->rows[found->next], &wanted, sizeof wanted) == 0;
    expect(is_it, f->name, "a finding, by the tables");
    expect(long_at(f, wanted.place) == wanted.offset, f->name, "the offset of a finding");
    found->next++;
}

static void want_outside(struct found *found, const struct listed *f, struct hunk_finding wanted,
                         uint32_t width, uint64_t bytes)
{
    wanted.fault = HUNK_FINDING_OUTSIDE_HUNK;
    if (wanted.offset + (uint64_t)width > bytes)
        want(found, f, wanted);
}

/* Those of the next relocation, in a hunk of so many bytes, and a unit of so many hunks. */
static void want_relocation(struct found *found, struct listed *f, uint64_t bytes, uint64_t hunks)
{
    const struct hunk_relocation *r = next_row(f, RELOCATIONS);
    struct hunk_finding wanted = {r->place, r->unit, r->hunk, r->offset, 0, 0};
    wanted.fault = HUNK_FINDING_BAD_TARGET;
    if (r->target >= hunks)
        want(found, f, wanted);
    want_outside(found, f, wanted, r->width, bytes);
}

/* Those of the references of the next entry. */
static void want_entry(struct found *found, struct listed *f, uint64_t bytes)
{
    const struct hunk_entry *e = next_row(f, ENTRIES);
    for (uint64_t i = 0; i < e->references; i++) {
        const struct hunk_reference *r = next_row(f, REFERENCES);
        struct hunk_finding wanted = {r->place, e->unit, e->hunk, r->offset, 0, 0};
        want_outside(found, f, wanted, r->width, bytes);
    }
}

/* The bytes of the hunk that begins with this block: those of its one content block. */
static uint64_t hunk_bytes(const struct hunk_block *b)
{
    uint64_t bytes = b->memory;
    for (; b->kind != END_KIND; b++)
        bytes += b[1].memory;
    return bytes;
}

/* The findings of an object file have to be those, in the order of the file. */
static void want_all(struct found *found, struct listed *f)
{
    const struct hunk_unit *units = f->rows[UNITS];
    uint64_t bytes = 0;
    int opens = 1;
    for (uint64_t i = 0; i < f->counts[BLOCKS]; i++) {
        const struct hunk_block *b = next_row(f, BLOCKS);
        bytes = opens ? hunk_bytes(b) : bytes;
        opens = b->kind == END_KIND;
        for (uint64_t item = 0; item < b->items && b->kind != SYMBOL_KIND; item++) {
            if (b->kind == EXT_KIND)
                want_entry(found, f, bytes);
            else
                want_relocation(found, f, bytes, units[b->unit].hunks);
        }
    }
    expect(found->next == found->count, f->name, "more findings than by the tables");
}

static void compare(const struct checked *c, const struct hunk_finding *rows, uint64_t count)
{
    struct found found = {rows, count, 0};
    struct listed f = {0};
    f.name = c->name;
    f.bytes = c->bytes;
    f.len = c->len;
    f.of = c->of;
    for (int table = 0; table < TABLES; table++) {
        f.counts[table] = call(table, f.bytes, f.len, NULL, 0).count;
        f.rows[table] = marked(&table_room[table], f.counts[table] * row_bytes[table]);
        call(table, f.bytes, f.len, f.rows[table], f.counts[table]);
    }
    if (f.of.hunk == 0)
        want_all(&found, &f);
}

/* ---- The two calls. */

/* A check without rows, with just as many as there are findings, with one fewer, and with more. */
static int check(struct checked *f)
{
    struct hunk_finding *rows = marked(&row_room, 0);
    struct hunk_answer asked = hunk_check(f->bytes, f->len, rows, 0);
    if (asked.number != HUNK_OK && asked.number != HUNK_NO_ROOM) {
        expect(asked.hunk == 0 && asked.count == 0, f->name, "a refusal");
        print_refusal(asked);
        return 0;
    }
    uint64_t findings = asked.count;
    expect((asked.number == HUNK_OK) == (findings == 0), f->name, "a check without rows");
    f->of = asked;
    struct hunk_answer all = answer_of(f, HUNK_OK, findings);
    rows = marked(&row_room, findings * sizeof *rows);
    expect(same(hunk_check(f->bytes, f->len, rows, findings), all), f->name, "a check");
    for (uint64_t i = 0; i < findings; i++)
        print_finding(f, rows[i]);
    compare(f, rows, findings);
    if (findings > 0) {
        rows = marked(&row_room, (findings - 1) * sizeof *rows);
        struct hunk_answer small = hunk_check(f->bytes, f->len, rows, findings - 1);
        expect(same(small, answer_of(f, HUNK_NO_ROOM, findings)), f->name, "a row too few");
        expect(all_marked(rows, (findings - 1) * sizeof *rows), f->name, "rows that are too few");
    }
    rows = marked(&row_room, (findings + AFTER) * sizeof *rows);
    struct hunk_answer more = hunk_check(f->bytes, f->of.place, rows, findings + AFTER);
    expect(same(more, all), f->name, "a check of the file alone");
    expect(all_marked(rows + findings, AFTER * sizeof *rows), f->name, "rows after");
    print_summary(f, findings);
    return 1;
}

static void put_stripped(const char *folder, const char *name, const uint8_t *text, size_t len)
{
    char path[1024];
    snprintf(path, sizeof path, "%s/%s", folder, name);
    FILE *out = fopen(path, "wb");
    if (out == NULL || fwrite(text, 1, len, out) != len || fclose(out) != 0)
        exit(3);
}

/* A strip without room, with just as much as there has to be, with a byte less, and with more; and
 * of what is left. */
static void strip(const struct checked *f, const char *folder)
{
    uint8_t *text = marked(&text_room, 0);
    struct hunk_answer asked = hunk_strip(f->bytes, f->len, text, 0);
    uint64_t len = asked.count;
    expect(same(asked, answer_of(f, HUNK_NO_ROOM, len)), f->name, "a strip without room");
    expect(len > 0 && len <= f->of.place, f->name, "bytes that are left");
    struct hunk_answer all = answer_of(f, HUNK_OK, len);
    text = marked(&text_room, len);
    expect(same(hunk_strip(f->bytes, f->len, text, len), all), f->name, "a strip");
    put_stripped(folder, f->name, text, len);

    uint8_t *again = marked(&again_room, len - 1);
    struct hunk_answer small = hunk_strip(f->bytes, f->len, again, len - 1);
    expect(same(small, asked), f->name, "a byte too few");
    expect(all_marked(again, len - 1), f->name, "text that is too short");
    again = marked(&again_room, len + AFTER);
    struct hunk_answer more = hunk_strip(f->bytes, f->of.place, again, len + AFTER);
    expect(same(more, all), f->name, "a strip of the file alone");
    expect(all_marked(again + len, AFTER), f->name, "text after");
    expect(memcmp(again, text, len) == 0, f->name, "the texts of two strips");

    again = marked(&again_room, len);
    struct hunk_answer twice = hunk_strip(text, len, again, len);
    all.place = len;
    expect(same(twice, all), f->name, "a strip of what was stripped");
    expect(memcmp(again, text, len) == 0, f->name, "what is left of it");
    printf("wrote %" PRIu64 " bytes\n", len);
    if (f->len > f->of.place)
        printf("rest %" PRIu64 " bytes left out\n", f->len - f->of.place);
}

/* Both calls refuse what is no file for the same. */
static void refuse_strip(const struct checked *f)
{
    uint8_t *text = marked(&text_room, f->len);
    struct hunk_answer a = hunk_strip(f->bytes, f->len, text, f->len);
    expect(a.number != HUNK_OK && a.number != HUNK_NO_ROOM, f->name, "a strip of no file");
    expect(all_marked(text, f->len), f->name, "text after a refusal");
    print_refusal(a);
}

int main(int argc, char **argv)
{
    if (argc < 3 || !make_guarded(&file_bytes) || !make_guarded(&row_room) ||
        !make_guarded(&text_room) || !make_guarded(&again_room) || !make_rooms(table_room))
        return 3;
    for (int i = 2; i < argc; i++) {
        struct checked f = {argv[i], NULL, 0, {0, 0, 0, 0}};
        f.bytes = read_file(&file_bytes, f.name, &f.len);
        printf("== %s\n", f.name);
        if (check(&f))
            strip(&f, argv[1]);
        else
            refuse_strip(&f);
    }
    return failures > 0;
}
