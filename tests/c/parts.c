/* The parts of files: parts FILE.. Each file is written again from its parts, whose bytes have to
 * stand where they are written, and hunk_build has to write it again. The calls are tried with rows
 * and text up to a page that faults, with one row or byte too few, with more, and with none; and
 * hunk_build with as many hunks and bytes as no file has. Status 1 where an answer, or what it
 * leaves in the caller's memory, is not what hunk.h says. */
#include "guarded.h"

#define MOST_BYTES (1 << 20)

static struct guarded file_bytes = {MOST_BYTES, NULL};
static struct guarded row_room = {(MOST_BYTES / 4 + AFTER) * sizeof(struct hunk_part), NULL};
static struct guarded text_room = {MOST_BYTES + AFTER, NULL};

/* A file, what hunk_check answers of it, but for `count`, and how much of it was written again. */
struct parted {
    const char *name;
    const uint8_t *bytes;
    size_t len;
    struct hunk_answer of;
    uint64_t at;
    int is_list; /* whether items were written that a 0 ends */
};

/* ---- The calls. */

static struct hunk_answer answer_of(const struct parted *f, uint32_t number, uint64_t count)
{
    struct hunk_answer a = f->of;
    a.number = number;
    a.count = count;
    return a;
}

/* Calls without rows, with one too few, with more, and with just as many as there are: these. */
static const struct hunk_part *try_file(const struct parted *f, uint64_t *count)
{
    struct hunk_answer asked = hunk_parts(f->bytes, f->len, NULL, 0);
    *count = asked.count;
    expect(same(asked, answer_of(f, HUNK_NO_ROOM, *count)), f->name, "a count");
    expect(*count <= f->of.place / 4, f->name, "rows that are always enough");
    struct hunk_part *rows = marked(&row_room, (*count - 1) * sizeof *rows);
    struct hunk_answer few = hunk_parts(f->bytes, f->len, rows, *count - 1);
    expect(same(few, asked), f->name, "a row too few");
    expect(all_marked(rows, (*count - 1) * sizeof *rows), f->name, "rows that are too few");
    rows = marked(&row_room, (*count + AFTER) * sizeof *rows);
    struct hunk_answer more = hunk_parts(f->bytes, f->of.place, rows, *count + AFTER);
    expect(same(more, answer_of(f, HUNK_OK, *count)), f->name, "the parts of the file alone");
    expect(all_marked(rows + *count, AFTER * sizeof *rows), f->name, "rows after");
    rows = marked(&row_room, *count * sizeof *rows);
    struct hunk_answer all = hunk_parts(f->bytes, f->len, rows, *count);
    expect(same(all, answer_of(f, HUNK_OK, *count)), f->name, "the parts");
    return rows;
}

/* A file that hunk_check refuses is refused for the same. */
static void refuse(const struct parted *f)
{
    struct hunk_part *rows = marked(&row_room, AFTER * sizeof *rows);
    expect(same(hunk_parts(f->bytes, f->len, rows, AFTER), f->of), f->name, "a refusal");
    expect(same(hunk_parts(f->bytes, f->len, NULL, 0), f->of), f->name, "a refusal without rows");
    expect(all_marked(rows, AFTER * sizeof *rows), f->name, "rows after a refusal");
}

/* ---- Writing again: what is written is compared with the file at once. */

static void put(struct parted *f, uint32_t word)
{
    const uint8_t *b = f->bytes + f->at;
    int holds = f->at < f->of.place && f->of.place - f->at >= 4;
    expect(holds && word == ((uint32_t)b[0] << 24 | b[1] << 16 | b[2] << 8 | b[3]), f->name,
           "a longword that is written again");
    f->at += 4;
}

/* Bytes of the file, which have to be those at which the writing is. */
static void put_bytes(struct parted *f, uint64_t from, uint64_t count)
{
    int holds = count == 0 || (from == f->at && count <= f->of.place - from);
    expect(holds, f->name, "where bytes stand");
    f->at += count;
}

static void put_payload(struct parted *f, const struct hunk_part *p)
{
    put(f, p->value + (uint32_t)(p->content_bytes / 4));
    put_bytes(f, p->content, p->content_bytes);
}

static int relocates(uint32_t kind)
{
    return (kind >= 0x3EC && kind <= 0x3EE) || (kind >= 0x3F7 && kind <= 0x3F9) || kind == 0x3FD ||
           kind == 0x3FE;
}

static void put_block(struct parted *f, const struct hunk_part *p)
{
    uint32_t kind = p->word & 0x1FFFFFFF;
    put(f, p->word);
    f->is_list = kind == 0x3EF || kind == 0x3F0 || relocates(kind);
    if (!f->is_list && kind != 0x3F2)
        put_payload(f, p);
}

static void put_offsets(struct parted *f, const struct hunk_part *p)
{
    put_bytes(f, p->offsets, 4 * p->offset_count);
}

/* A symbol or an entry, up to its name. */
static void put_named(struct parted *f, const struct hunk_part *p)
{
    put(f, p->word << 24 | (uint32_t)(p->content_bytes / 4));
    put_bytes(f, p->content, p->content_bytes);
}

static void put_entry(struct parted *f, const struct hunk_part *p)
{
    put_named(f, p);
    if (p->word <= 2 || p->word == 130 || p->word == 137)
        put(f, p->value);
    if (p->word > 2) {
        put(f, (uint32_t)p->offset_count);
        put_offsets(f, p);
    }
}

/* The header, and the size words of all hunks. */
static void put_header(struct parted *f, const struct hunk_part *rows, uint64_t count)
{
    const uint32_t head[] = {0x3F3, 0, f->of.hunk, 0, f->of.hunk - 1};
    uint32_t hunks = 0;
    for (int i = 0; i < 5; i++)
        put(f, head[i]);
    for (uint64_t i = 0; i < count; i++) {
        if (rows[i].what != HUNK_PART_HUNK)
            continue;
        hunks++;
        put(f, rows[i].word);
        if (rows[i].word >> 30 == 3)
            put(f, rows[i].value);
    }
    expect(hunks == f->of.hunk, f->name, "a row for each hunk");
}

static void put_part(struct parted *f, const struct hunk_part *p)
{
    if (f->is_list && p->what <= HUNK_PART_BLOCK)
        put(f, 0);
    f->is_list = f->is_list && p->what > HUNK_PART_BLOCK;
    expect(p->reserved == 0, f->name, "a field that is reserved");
    switch (p->what) {
    case HUNK_PART_HUNK:
        break;
    case HUNK_PART_UNIT:
        put(f, 0x3E7);
        put_payload(f, p);
        break;
    case HUNK_PART_BLOCK:
        put_block(f, p);
        break;
    case HUNK_PART_GROUP:
        put(f, (uint32_t)p->offset_count);
        put(f, p->word);
        put_offsets(f, p);
        break;
    case HUNK_PART_SYMBOL:
        put_named(f, p);
        put(f, p->value);
        break;
    default:
        expect(p->what == HUNK_PART_ENTRY, f->name, "what a part is");
        put_entry(f, p);
    }
}

static void write_again(struct parted *f, const struct hunk_part *rows, uint64_t count)
{
    if (f->of.hunk > 0)
        put_header(f, rows, count);
    for (uint64_t i = 0; i < count; i++)
        put_part(f, &rows[i]);
    if (f->is_list)
        put(f, 0);
    expect(f->at == f->of.place, f->name, "the bytes that are written again");
}

/* ---- Building. */

static void build_again(const struct parted *f, const struct hunk_part *rows, uint64_t count)
{
    size_t size = f->of.place;
    uint8_t *text = marked(&text_room, size - 1);
    struct hunk_answer less = hunk_build(rows, count, f->bytes, f->len, text, size - 1);
    expect(same(less, answer_of(f, HUNK_NO_ROOM, size)), f->name, "text a byte too short");
    expect(all_marked(text, size - 1), f->name, "text that is too short");
    text = marked(&text_room, size + AFTER);
    struct hunk_answer more = hunk_build(rows, count, f->bytes, f->len, text, size + AFTER);
    expect(same(more, answer_of(f, HUNK_OK, size)), f->name, "a build");
    expect(all_marked(text + size, AFTER), f->name, "text after the file");
    text = marked(&text_room, size);
    struct hunk_answer all = hunk_build(rows, count, f->bytes, f->len, text, size);
    expect(same(all, answer_of(f, HUNK_OK, size)), f->name, "a build with just enough room");
    expect(memcmp(text, f->bytes, size) == 0, f->name, "the file that is built again");
}

/* Without its last row a file lacks its last END, or it is one without a last, empty unit. */
static void build_less(const struct parted *f, const struct hunk_part *rows, uint64_t count)
{
    if (rows[count - 1].what == HUNK_PART_UNIT)
        return;
    uint8_t *text = marked(&text_room, f->of.place);
    struct hunk_answer a = hunk_build(rows, count - 1, f->bytes, f->len, text, f->of.place);
    struct hunk_answer wanted = {HUNK_TRUNCATED, 0, f->of.place - 4, count - 1};
    expect(same(a, wanted), f->name, "a build without the last row");
    expect(all_marked(text, f->of.place), f->name, "text of no file");
}

/* More hunks, a longer content and a longer name than a file has. */
static void build_too_much(void)
{
    const uint64_t content = UINT64_C(1) << 32, name = UINT64_C(1) << 26;
    void *bytes = mmap(NULL, content, PROT_READ, MAP_PRIVATE | MAP_ANONYMOUS | MAP_NORESERVE, -1, 0);
    uint8_t *text = marked(&text_room, AFTER);
    struct hunk_part *rows = marked(&row_room, 65537 * sizeof *rows);
    for (int i = 0; i < 65537; i++)
        rows[i] = (struct hunk_part){.what = HUNK_PART_HUNK, .word = 1};
    struct hunk_answer a = hunk_build(rows, 65537, NULL, 0, text, AFTER);
    expect(same(a, (struct hunk_answer){HUNK_TOO_MANY_HUNKS, 0, 8, 65536}), "hunks", "a build");
    if (bytes == MAP_FAILED)
        exit(3);
    struct hunk_part unit = {.what = HUNK_PART_UNIT, .content_bytes = name};
    a = hunk_build(&unit, 1, bytes, content, text, AFTER);
    expect(same(a, (struct hunk_answer){HUNK_NAME_WORD, 0, 4, 0}), "a name", "a build");
    struct hunk_part code[] = {{.what = HUNK_PART_UNIT},
                               {.what = HUNK_PART_BLOCK, .word = 0x3E9, .content_bytes = content}};
    a = hunk_build(code, 2, bytes, content, text, AFTER);
    expect(same(a, (struct hunk_answer){HUNK_CONTENT_TOO_LONG, 0, 12, 1}), "content", "a build");
    expect(all_marked(text, AFTER), "too much", "text");
    munmap(bytes, content);
}

int main(int argc, char **argv)
{
    if (argc < 2 || !make_guarded(&file_bytes) || !make_guarded(&row_room) ||
        !make_guarded(&text_room))
        return 3;
    build_too_much();
    for (int i = 1; i < argc; i++) {
        struct parted f = {.name = argv[i]};
        f.bytes = read_file(&file_bytes, f.name, &f.len);
        f.of = hunk_check(f.bytes, f.len, NULL, 0);
        if (f.of.number != HUNK_OK && f.of.number != HUNK_NO_ROOM) {
            refuse(&f);
            continue;
        }
        uint64_t count;
        const struct hunk_part *rows = try_file(&f, &count);
        write_again(&f, rows, count);
        build_again(&f, rows, count);
        build_less(&f, rows, count);
    }
    return failures > 0;
}
