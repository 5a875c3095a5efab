/* The warnings of load files: warned TABLE FILE.. Those of each row of TABLE, vectors/warnings.tsv,
 * have to be what the row has. On each text of it, and on each FILE, the call is tried with room
 * and rows up to a page that faults, and with one element or row too few. Then on many offsets, for
 * which a call that compares each with each would take minutes. Status 1 where an answer, or what
 * it leaves in the caller's memory, is not what hunk.h says. */
#include "tabled.h"

#define LONGEST 4096 /* of a line of the table */
#define OFFSETS ((1 << 18) - 14) /* of a file of 1 MiB but for two longwords */

static struct guarded file_bytes = {1 << 20, NULL};
static struct guarded element_room = {1 << 20, NULL};
static struct guarded row_room = {(MOST_ROWS + AFTER) * sizeof(struct hunk_warning), NULL};
static struct guarded table_room = {MOST_ROWS * sizeof(struct hunk_relocation), NULL};

/* A file, what hunk_check answers of it, but for `count`, and the room that it needs. */
struct warned {
    const char *name;
    const uint8_t *bytes;
    size_t len;
    struct hunk_answer of;
    uint64_t room;
};

/* ---- The calls. */

/* The hunks of a load file, and the relocations of the hunk that has most of them. */
static uint64_t room_needed(const struct warned *f)
{
    struct hunk_relocation *rows = (void *)(table_room.end - table_room.size);
    uint64_t count = hunk_relocations(f->bytes, f->len, rows, MOST_ROWS).count;
    uint64_t most = 0, in_hunk = 0;
    for (uint64_t i = 0; i < count; i++) {
        in_hunk = i > 0 && rows[i].hunk == rows[i - 1].hunk ? in_hunk + 1 : 1;
        most = in_hunk > most ? in_hunk : most;
    }
    return f->of.hunk + most;
}

/* The call with so much room, and with rows at their end. */
static struct hunk_answer ask(const struct warned *f, size_t len, uint64_t room,
                              struct hunk_warning *rows, uint64_t count)
{
    uint32_t *elements = marked(&element_room, room * sizeof *elements);
    return hunk_warnings(f->bytes, len, room > 0 ? elements : NULL, room, rows, count);
}

static struct hunk_answer answer_of(const struct warned *f, uint32_t number, uint64_t count)
{
    struct hunk_answer a = f->of;
    a.number = number;
    a.count = count;
    return a;
}

/* What is written where there is too little room, or a row too few: nothing. */
static void try_too_little(const struct warned *f, uint64_t room, uint64_t count, uint64_t needed,
                           const char *what)
{
    struct hunk_warning *rows = marked(&row_room, count * sizeof *rows);
    struct hunk_answer a = ask(f, f->len, room, rows, count);
    expect(same(a, answer_of(f, HUNK_NO_ROOM, needed)), f->name, what);
    expect(all_marked(rows, count * sizeof *rows), f->name, what);
}

/* Calls with as much as is needed, with less, and with more: the rows, and how many. */
static const struct hunk_warning *try_file(const struct warned *f, uint64_t *count)
{
    struct hunk_answer asked = ask(f, f->len, f->room, NULL, 0);
    *count = asked.count;
    struct hunk_answer all = answer_of(f, HUNK_OK, *count);
    expect(same(asked, *count > 0 ? answer_of(f, HUNK_NO_ROOM, *count) : all), f->name, "a count");
    if (f->room > 0)
        try_too_little(f, f->room - 1, *count + 1, 0, "an element of room too few");
    if (*count > 0)
        try_too_little(f, f->room, *count - 1, *count, "a row too few");
    struct hunk_warning *rows = marked(&row_room, (*count + AFTER) * sizeof *rows);
    struct hunk_answer more = ask(f, f->of.place, f->room + 1, rows, *count + AFTER);
    expect(same(more, all), f->name, "the warnings of the file alone");
    expect(all_marked(rows + *count, AFTER * sizeof *rows), f->name, "rows after");
    rows = marked(&row_room, *count * sizeof *rows);
    expect(same(ask(f, f->len, f->room, rows, *count), all), f->name, "the warnings");
    return rows;
}

/* A file that hunk_check refuses is refused for the same. */
static void refuse(const struct warned *f)
{
    struct hunk_warning *rows = marked(&row_room, AFTER * sizeof *rows);
    expect(same(ask(f, f->len, f->len / 4, rows, AFTER), f->of), f->name, "a refusal");
    expect(same(ask(f, f->len, 0, NULL, 0), f->of), f->name, "a refusal without room");
    expect(all_marked(rows, AFTER * sizeof *rows), f->name, "rows after a refusal");
}

/* What hunk_check answers. An object file needs no room, and has no warnings. */
static int is_accepted(struct warned *f)
{
    f->of = hunk_check(f->bytes, f->len, NULL, 0);
    int accepted = f->of.number == HUNK_OK || f->of.number == HUNK_NO_ROOM;
    f->room = accepted && f->of.hunk > 0 ? room_needed(f) : 0;
    expect(f->room <= f->len / 4, f->name, "the room that is always enough");
    return accepted;
}

/* ---- Files. */

/* The rows are in the order of the file, those of one longword in that of their kinds, and name a
 * longword of the file, which is the offset where one is relocated. */
static void look(struct warned *f)
{
    uint64_t count;
    if (!is_accepted(f)) {
        refuse(f);
        return;
    }
    const struct hunk_warning *rows = try_file(f, &count);
    struct listed bytes = {0};
    bytes.name = f->name;
    bytes.bytes = f->bytes;
    bytes.of = f->of;
    expect(f->of.hunk > 0 || count == 0, f->name, "warnings of an object file");
    for (uint64_t i = 0; i < count; i++) {
        const struct hunk_warning *r = rows + i, *before = i > 0 ? r - 1 : NULL;
        int is_offset = r->kind <= HUNK_WARNING_OUTSIDE_TARGET;
        int follows = before == NULL || before->place < r->place ||
                      (before->place == r->place && before->kind < r->kind);
        expect(follows && r->hunk < f->of.hunk && r->reserved == 0, f->name, "the order of rows");
        expect(!is_offset || long_at(&bytes, r->place) == r->offset, f->name, "a place");
    }
}

/* ---- The table. */

static int digit(char c) { return c <= '9' ? c - '0' : c - 'a' + 10; }

/* The bytes of a text, up to a page that faults. */
static void take_text(struct warned *f, const char *digits)
{
    f->len = strlen(digits) / 2;
    uint8_t *bytes = marked(&file_bytes, f->len);
    for (size_t i = 0; i < f->len; i++)
        bytes[i] = (uint8_t)(digit(digits[2 * i]) << 4 | digit(digits[2 * i + 1]));
    f->bytes = bytes;
}

/* The next row of a list of them: 1 where there is one. */
static int next_wanted(char **list, struct hunk_warning *row)
{
    uint64_t numbers[7];
    if (**list == 0)
        return 0;
    for (int i = 0; i < 7; i++)
        numbers[i] = strtoull(*list, list, 10);
    *list += strspn(*list, "; ");
    *row = (struct hunk_warning){
        numbers[0], numbers[1], (uint32_t)numbers[2], (uint32_t)numbers[3],
        (uint32_t)numbers[4], (uint32_t)numbers[5], (uint32_t)numbers[6], 0};
    return 1;
}

static void compare(const struct warned *f, char *wanted)
{
    struct hunk_warning row;
    uint64_t count, i = 0;
    const struct hunk_warning *rows = try_file(f, &count);
    for (; next_wanted(&wanted, &row); i++)
        expect(i < count && memcmp(rows + i, &row, sizeof row) == 0, f->name, "a warning");
    expect(i == count, f->name, "how many warnings there are");
}

/* How many rows the table has. */
static int compare_table(const char *name)
{
    static char line[LONGEST];
    int rows = 0;
    FILE *table = fopen(name, "r");
    while (table != NULL && fgets(line, sizeof line, table) != NULL) {
        char *text = strchr(line, '\t'), *wanted = text ? strchr(text + 1, '\t') : NULL;
        if (line[0] == '#' || wanted == NULL)
            continue;
        line[strcspn(line, "\n")] = 0;
        *text++ = *wanted++ = 0;
        struct warned f = {line, NULL, 0, {0, 0, 0, 0}, 0};
        take_text(&f, text);
        expect(is_accepted(&f) && f.of.place == f.len, f.name, "a text of the table");
        compare(&f, wanted);
        look(&f);
        rows++;
    }
    return rows;
}

/* ---- Many offsets. */

static uint8_t *put(uint8_t *at, uint32_t longword)
{
    for (int shift = 24; shift >= 0; shift -= 8)
        *at++ = (uint8_t)(longword >> shift);
    return at;
}

/* A load file of a BSS hunk that is relocated at many offsets, which fall by this step. */
static void put_offsets(struct warned *f, uint32_t step)
{
    static const uint32_t head[] = {0x3F3, 0, 1, 0, 0, OFFSETS, 0x3EB, 0, 0x3EC, OFFSETS, 0};
    uint32_t longs = sizeof head / sizeof *head;
    f->len = 4 * (size_t)(longs + OFFSETS + 2);
    uint8_t *at = marked(&file_bytes, f->len);
    f->bytes = at;
    for (uint32_t i = 0; i < longs; i++)
        at = put(at, head[i]);
    for (uint32_t i = OFFSETS; i-- > 0;)
        at = put(at, step * i);
    put(put(at, 0), END_KIND);
    f->of = (struct hunk_answer){HUNK_OK, 1, f->len, 0};
    f->room = OFFSETS + 1;
}

/* There are so many warnings. That of NoEntry comes first. */
static void count_many(const char *name, uint32_t step, uint64_t count)
{
    struct warned f = {0};
    f.name = name;
    put_offsets(&f, step);
    struct hunk_answer a = ask(&f, f.len, f.room, NULL, 0);
    expect(same(a, answer_of(&f, HUNK_NO_ROOM, count)), name, "a count");
    try_too_little(&f, f.room - 1, 1, 0, "an element of room too few");
}

int main(int argc, char **argv)
{
    if (argc < 2 || !make_guarded(&file_bytes) || !make_guarded(&element_room) ||
        !make_guarded(&row_room) || !make_guarded(&table_room))
        return 3;
    expect(compare_table(argv[1]) > 16, argv[1], "how many rows the table has");
    for (int i = 2; i < argc; i++) {
        struct warned f = {argv[i], NULL, 0, {0, 0, 0, 0}, 0};
        f.bytes = read_file(&file_bytes, f.name, &f.len);
        look(&f);
    }
    /* Twice and InBss; none but InBss; Overlap and InBss, and OddOffset of each second one. */
    count_many("one offset, many times", 0, 1 + 2 * (uint64_t)OFFSETS);
    count_many("offsets that are 4 apart", 4, 1 + (uint64_t)OFFSETS);
    count_many("offsets that are 1 apart", 1, 1 + 2 * (uint64_t)OFFSETS + OFFSETS / 2);
    return failures > 0;
}
