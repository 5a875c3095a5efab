/* Load files in other spellings: what their plain spelling is, how much room it needs, and where a
 * refusal of it stands in the input. Status 1 where an answer, or what it leaves in the caller's
 * memory, is not what hunk.h says. With names of files, each of them is held to what all files keep
 * to: hunk_plain writes what hunk_spelling_of says, a plain spelling is its own, and an input that
 * is a file stays as it is. */
#include "guarded.h"

#define MOST_LONGS 32
#define HEADER 0x3F3, 0, 1, 0, 0 /* of one hunk, before its size */

static struct guarded input_room = {1 << 20, NULL};
static struct guarded text_room = {(2 << 20) + AFTER, NULL};
static struct guarded again_room = {(2 << 20) + AFTER, NULL};

/* An input of so many bytes, its plain spelling, and what hunk_load answers to that: at a refusal,
 * with its place in the plain spelling and in the input. The last field says where the bytes of the
 * plain spelling stand: =n are n bytes as they are, +n are put in, and -n are left out. */
static const struct spelled {
    const char *name;
    size_t len, plain_len;
    uint32_t longs[MOST_LONGS], plain[MOST_LONGS];
    uint64_t short_blocks, ends;
    uint32_t number;
    uint64_t place, input_place;
    const char *places;
} spelled[] = {
    {"plain", 36, 36, {HEADER, 1, 0x3EB, 1, 0x3F2}, {HEADER, 1, 0x3EB, 1, 0x3F2}, 0, 0,
     HUNK_OK, 36, 36, "=36"},
    {"a short block", 56, 64,
     {HEADER, 2, 0x3E9, 2, 0, 0, 0x3FC, 0x10000, 0, 0x3F2},
     {HEADER, 2, 0x3E9, 2, 0, 0, 0x3EC, 1, 0, 0, 0, 0x3F2}, 1, 0, HUNK_OK, 0, 0,
     "=44 +2=2 +2=2 +2=2 +2=2 =4"},
    {"filled up", 60, 68,
     {HEADER, 2, 0x3E9, 2, 0, 0, 0x400003F7, 0x20000, 0x4, 0, 0x3F2},
     {HEADER, 2, 0x3E9, 2, 0, 0, 0x400003EC, 2, 0, 0, 4, 0, 0x3F2}, 1, 0, HUNK_OK, 0, 0,
     "=44 +2=2 +2=2 +2=2 +2=2 +2=2 -2 =4"},
    {"no END", 48, 56,
     {0x3F3, 0, 2, 0, 1, 0, 1, 0x3E9, 0, 0x800003EA, 1, 7},
     {0x3F3, 0, 2, 0, 1, 0, 1, 0x3E9, 0, 0x3F2, 0x800003EA, 1, 7, 0x3F2}, 0, 2, HUNK_OK, 0, 0,
     "=36 +4 =12 +4"},
    {"a target too high", 44, 56,
     {HEADER, 1, 0x3EB, 1, 0x3FC, 0x10005, 0},
     {HEADER, 1, 0x3EB, 1, 0x3EC, 1, 5, 0, 0, 0x3F2}, 1, 1, HUNK_BAD_TARGET, 40, 38,
     "=36 +2=2 +2=2 +2=2 +2=2 +4"},
    {"filled up with another number", 44, 50,
     {HEADER, 1, 0x3EB, 1, 0x3FC, 0x1, 0x3F2},
     {HEADER, 1, 0x3EB, 1, 0x3EC, 0, 0x3FC, 0x10000, 0x3F20000}, 1, 0, HUNK_SHORT_RELOC, 40, 38,
     "=36 +2=2 +4=2 =4"},
    {"cut in a longword", 34, 34,
     {HEADER, 1, 0x3EB, 1, 0}, {HEADER, 1, 0x3EB, 1, 0}, 0, 0, HUNK_TRUNCATED, 32, 32, "=34"},
    {"cut in a content", 38, 38,
     {HEADER, 3, 0x3E9, 3, 1, 0x20000}, {HEADER, 3, 0x3E9, 3, 1, 0x20000}, 0, 0,
     HUNK_TRUNCATED, 36, 36, "=38"},
    {"cut in a 16-bit word", 39, 41,
     {HEADER, 1, 0x3EB, 1, 0x3FC, 0x10000}, {HEADER, 1, 0x3EB, 1, 0x3EC, 1, 0}, 1, 0,
     HUNK_TRUNCATED, 40, 38, "=36 +2=2 =1"},
    {"cut between 16-bit words", 38, 40,
     {HEADER, 1, 0x3EB, 1, 0x3FC, 0x10000}, {HEADER, 1, 0x3EB, 1, 0x3EC, 1}, 1, 0,
     HUNK_TRUNCATED, 40, 38, "=36 +2=2"},
    {"cut in what fills up", 39, 41,
     {HEADER, 1, 0x3EB, 1, 0x3FC, 0}, {HEADER, 1, 0x3EB, 1, 0x3EC, 0, 0}, 1, 0,
     HUNK_TRUNCATED, 40, 38, "=36 +2=2 =1"},
    {"cut after a short block", 42, 42,
     {HEADER, 1, 0x3EB, 1, 0x3FC, 0, 0}, {HEADER, 1, 0x3EB, 1, 0x3EC, 0, 0}, 1, 0,
     HUNK_TRUNCATED, 40, 40, "=36 +2=2 -2 =2"},
    {"bytes behind a short block", 47, 47,
     {HEADER, 1, 0x3EB, 1, 0x3FC, 0, 0x3F2, 0x1020300},
     {HEADER, 1, 0x3EB, 1, 0x3EC, 0, 0x3F2, 0x1020300}, 1, 0, HUNK_OK, 0, 0,
     "=36 +2=2 -2 =4 =3"},
    {"an object file", 20, 20,
     {0x3E7, 0, 0x3EB, 0, 0x3F2}, {0x3E7, 0, 0x3EB, 0, 0x3F2}, 0, 0, HUNK_IS_OBJECT, 0, 0, "=20"},
    {"a short block in an object file", 28, 36,
     {0x3E7, 0, 0x3E9, 0, 0x3FC, 0x10000}, {0x3E7, 0, 0x3E9, 0, 0x3EC, 1}, 1, 0,
     HUNK_IS_OBJECT, 0, 0, "=20 +2=2 +2=2 +2=2 +2=2"},
};

static void put_longs(uint8_t *bytes, const uint32_t *longs, size_t len)
{
    for (size_t i = 0; i < len; i++)
        bytes[i] = (uint8_t)(longs[i / 4] >> (24 - 8 * (i % 4)));
}

/* A plain spelling with just its room, with a byte fewer, and with more. It gives the text. */
static const uint8_t *spell(const char *name, const uint8_t *bytes, size_t len)
{
    struct hunk_spelling s = hunk_spelling_of(bytes, len);
    struct hunk_answer all = {HUNK_OK, 0, len, s.bytes}, few = all;
    few.number = HUNK_NO_ROOM;
    expect(s.bytes <= 2 * len && s.reserved == 0, name, "how it is spelled");
    if (s.bytes > text_room.size - AFTER)
        exit(3);
    uint8_t *text = marked(&text_room, s.bytes);
    expect(same(hunk_plain(bytes, len, text, s.bytes), all), name, "a plain spelling");
    if (s.bytes > 0) {
        uint8_t *small = marked(&again_room, s.bytes - 1);
        expect(same(hunk_plain(bytes, len, small, s.bytes - 1), few), name, "a byte too few");
        expect(all_marked(small, s.bytes - 1), name, "text that is too short");
        expect(same(hunk_plain(bytes, len, NULL, 0), few), name, "no text");
    }
    uint8_t *more = marked(&again_room, s.bytes + AFTER);
    expect(same(hunk_plain(bytes, len, more, s.bytes + AFTER), all), name, "room for more");
    expect(memcmp(more, text, s.bytes) == 0, name, "two plain spellings");
    expect(all_marked(more + s.bytes, AFTER), name, "text after");
    return text;
}

/* Every place of the plain spelling, and some behind it. */
static void expect_places(const struct spelled *row, const uint8_t *bytes)
{
    uint64_t place = 0, at = 0;
    for (const char *next = row->places; *next != 0; next += strspn(next, " 0123456789")) {
        char what = *next++;
        for (int n = atoi(next); n > 0; n--) {
            if (what != '-')
                expect(hunk_input_place(bytes, row->len, place++) == at, row->name, "a place");
            if (what != '+')
                at++;
        }
    }
    expect(place == row->plain_len && at == row->len, row->name, "what the row says of places");
    for (int behind = 0; behind < 9; behind++)
        expect(hunk_input_place(bytes, row->len, place + behind) == row->len, row->name,
               "a place behind it");
    expect(hunk_input_place(bytes, row->len, UINT64_MAX) == row->len, row->name, "the last place");
}

static void spell_row(const struct spelled *row)
{
    static uint8_t plain[4 * MOST_LONGS], memory[64];
    static const uint32_t bases[2] = {0, 8};
    uint8_t *bytes = marked(&input_room, row->len);
    put_longs(bytes, row->longs, row->len);
    put_longs(plain, row->plain, row->plain_len);
    struct hunk_spelling s = hunk_spelling_of(bytes, row->len);
    expect(s.bytes == row->plain_len && s.short_blocks == row->short_blocks && s.ends == row->ends,
           row->name, "how it is spelled");
    if (s.bytes != row->plain_len)
        return;
    const uint8_t *text = spell(row->name, bytes, row->len);
    expect(memcmp(text, plain, row->plain_len) == 0, row->name, "the plain spelling");
    expect_places(row, bytes);
    struct hunk_answer a = hunk_load(text, s.bytes, bases, 2, memory, sizeof memory);
    expect(a.number == row->number, row->name, "a load of it");
    if (a.number == HUNK_OK)
        return;
    expect(a.place == row->place, row->name, "the place of a refusal");
    expect(hunk_input_place(bytes, row->len, a.place) == row->input_place, row->name,
           "its place in the input");
}

static void spell_nothing(void)
{
    struct hunk_spelling s = hunk_spelling_of(NULL, 0);
    expect(s.bytes == 0 && s.short_blocks == 0 && s.ends == 0, "no bytes", "how it is spelled");
    expect(same(hunk_plain(NULL, 0, NULL, 0), (struct hunk_answer){HUNK_OK, 0, 0, 0}), "no bytes",
           "a plain spelling");
    expect(hunk_input_place(NULL, 0, 7) == 0, "no bytes", "a place");
}

/* What holds of any file. */
static void spell_file(const char *name)
{
    size_t len;
    const uint8_t *bytes = read_file(&input_room, name, &len);
    struct hunk_spelling s = hunk_spelling_of(bytes, len);
    int is_plain = s.short_blocks == 0 && s.ends == 0;
    const uint8_t *text = spell(name, bytes, len);
    expect(!is_plain || (s.bytes == len && memcmp(text, bytes, len) == 0), name, "plain as it is");
    struct hunk_answer a = hunk_check(bytes, len, NULL, 0);
    expect(is_plain || (a.number != HUNK_OK && a.number != HUNK_NO_ROOM), name, "a file is plain");
    if (is_plain)
        for (uint64_t place = 0; place <= len; place += 3)
            expect(hunk_input_place(bytes, len, place) == place, name, "a place of a plain file");
    expect(hunk_input_place(bytes, len, s.bytes) == len, name, "the place behind a file");
    struct hunk_spelling again = hunk_spelling_of(text, s.bytes);
    expect(hunk_check(text, s.bytes, NULL, 0).number != HUNK_OK ||
               (again.short_blocks == 0 && again.ends == 0), name, "a plain spelling is plain");
}

int main(int argc, char **argv)
{
    if (!make_guarded(&input_room) || !make_guarded(&text_room) || !make_guarded(&again_room))
        return 3;
    spell_nothing();
    for (size_t i = 0; i < sizeof spelled / sizeof *spelled; i++)
        spell_row(&spelled[i]);
    for (int i = 1; i < argc; i++)
        spell_file(argv[i]);
    return failures > 0;
}
