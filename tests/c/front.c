/* What stands before a fault: the front of an input, what closes it, and how much room that needs.
 * Status 1 where an answer, or what it leaves in the caller's memory, is not what hunk.h says. With
 * names of files, each of them is held to what all inputs keep to: the text is a file that is
 * accepted, and begins as the input does, as far as that is accepted. */
#include "guarded.h"

#define MOST_LONGS 16
#define MOST_CLOSING 6
#define HEADER 0x3F3, 0, 1, 0, 0         /* of one hunk, before its size */
#define HEADER_OF_TWO 0x3F3, 0, 2, 0, 1  /* of two hunks, before their sizes */
#define UNIT 0x3E7, 1, 0x61000000        /* and its name */
#define EMPTY 0x3EB, 0, 0x3F2            /* a hunk that closes a front */
#define END 0x3F2
#define MANY 5000

static struct guarded input_room = {1 << 20, NULL};
static struct guarded text_room = {4 << 20, NULL};
static struct guarded again_room = {(4 << 20) + AFTER, NULL};

/* An input of so many bytes, the hunks of its table, the bytes of its front, and the longwords that
 * close it. */
static const struct fronted {
    const char *name;
    size_t len;
    uint32_t longs[MOST_LONGS];
    uint32_t hunks;
    size_t place, closing_len;
    uint32_t closing[MOST_CLOSING];
} fronted[] = {
    {"no longword", 3, {0x3F3}, 0, 0, 0, {0}},
    {"no load file", 36, {0x3F2, 0, 1, 0, 0, 1, 0x3EB, 1, END}, 0, 0, 0, {0}},
    {"resident libraries", 36, {0x3F3, 1, 1, 0, 0, 1, 0x3EB, 1, END}, 0, 0, 0, {0}},
    {"another last hunk", 36, {0x3F3, 0, 1, 0, 1, 1, 0x3EB, 1, END}, 0, 0, 0, {0}},
    {"a table that is cut", 24, {HEADER_OF_TWO, 1}, 0, 0, 0, {0}},
    {"a table cut in a longword", 23, {HEADER, 1}, 0, 0, 0, {0}},
    {"attributes that are cut", 24, {HEADER, 0xC0000001}, 0, 0, 0, {0}},
    {"attributes", 28, {HEADER, 0xC0000001, 2}, 1, 28, 3, {EMPTY}},
    {"a table", 24, {HEADER, 1}, 1, 24, 3, {EMPTY}},
    {"a table of two", 28, {HEADER_OF_TWO, 1, 1}, 2, 28, 6, {EMPTY, EMPTY}},
    {"a block word that is refused", 28, {HEADER, 1, 0x3F4}, 1, 24, 3, {EMPTY}},
    {"a content that is cut", 36, {HEADER, 2, 0x3E9, 2, 7}, 1, 24, 3, {EMPTY}},
    {"a content that is too long", 36, {HEADER, 1, 0x3E9, 2, 7}, 1, 24, 3, {EMPTY}},
    {"no block word", 34, {HEADER, 1, 0x3EB, 1, END}, 1, 32, 1, {END}},
    {"no content", 36, {HEADER, 1, 0x3F1, 0, END}, 1, 32, 3, {EMPTY}},
    {"a name that is cut", 44, {HEADER, 1, 0x3EB, 1, 0x3E8, 2, 7}, 1, 32, 1, {END}},
    {"a second group that is refused", 60,
     {HEADER, 1, 0x3EB, 1, 0x3EC, 1, 0, 0, 1, 1, 0}, 1, 32, 1, {END}},
    {"two groups", 60, {HEADER, 1, 0x3EB, 1, 0x3EC, 1, 0, 0, 1, 0, 0}, 1, 32, 1, {END}},
    {"two groups that end", 60, {HEADER, 1, 0x3EB, 1, 0x3EC, 1, 0, 0, 0, 0x3F1, 0}, 1, 60, 1,
     {END}},
    {"a symbol after END", 44, {HEADER_OF_TWO, 1, 1, 0x3EB, 1, END, 0x3F0}, 2, 40, 3, {EMPTY}},
    {"a content after END", 48, {HEADER_OF_TWO, 1, 1, 0x3EB, 1, END, 0x3EA, 0}, 2, 48, 1, {END}},
    {"whole", 36, {HEADER, 1, 0x3EB, 1, END}, 1, 32, 1, {END}},
    {"whole, with flags of END", 36, {HEADER, 1, 0x3EB, 1, 0x400003F2}, 1, 32, 1, {END}},
    {"a unit's name that is cut", 8, {UNIT}, 0, 0, 0, {0}},
    {"a unit's name with a top byte", 12, {0x3E7, 0x1000001, 0x61000000}, 0, 0, 0, {0}},
    {"a unit with a flag", 12, {0x200003E7, 1, 0x61000000}, 0, 0, 0, {0}},
    {"a unit's name", 12, {UNIT}, 0, 12, 0, {0}},
    {"a unit without hunks, and a byte", 13, {UNIT, 0x3E9}, 0, 12, 0, {0}},
    {"two units", 20, {UNIT, 0x3E7, 0}, 0, 20, 0, {0}},
    {"a second unit that is cut", 32, {UNIT, 0x3EB, 1, END, 0x3E7, 1}, 0, 24, 0, {0}},
    {"a content of an object file that is cut", 24, {UNIT, 0x3E9, 2, 7}, 0, 12, 0, {0}},
    {"no content in an object file", 24, {UNIT, 0x3F1, 0, END}, 0, 20, 3, {EMPTY}},
    {"an open hunk of an object file", 20, {UNIT, 0x400003EB, 1}, 0, 20, 1, {END}},
    {"a unit in a hunk", 28, {UNIT, 0x3EB, 1, 0x3E7, 0}, 0, 20, 1, {END}},
    {"a target and an offset that are wrong", 48,
     {UNIT, 0x3EB, 1, 0x3ED, 1, 7, 9, 0, 0x3EF, 0x3000000}, 0, 40, 1, {END}},
    {"an entry that is cut", 52,
     {UNIT, 0x3EB, 1, 0x3EF, 0x1000001, 0x62000000, 0, 0x81000000, 2, 0}, 0, 20, 1, {END}},
    {"entries", 52,
     {UNIT, 0x3EB, 1, 0x3EF, 0x1000001, 0x62000000, 0, 0x82000000, 4, 1, 0}, 0, 20, 1, {END}},
    {"entries that end", 56,
     {UNIT, 0x3EB, 1, 0x3EF, 0x1000001, 0x62000000, 0, 0x82000000, 4, 1, 0, 0}, 0, 56, 1, {END}},
    {"a whole object file", 24, {UNIT, 0x3EB, 1, END}, 0, 24, 0, {0}},
    {"longwords after the file", 48, {HEADER, 1, 0x3EB, 1, END, 0x3F1, 0, 0x3F2}, 1, 32, 1, {END}},
};

static void put_longs(uint8_t *bytes, const uint32_t *longs, size_t len)
{
    for (size_t i = 0; i < len; i++)
        bytes[i] = (uint8_t)(longs[i / 4] >> (24 - 8 * (i % 4)));
}

/* The text of a front with just its room, with a byte fewer, and with more. It gives the text, and
 * the answer. */
static const uint8_t *text_of(const char *name, const uint8_t *bytes, size_t len,
                              struct hunk_answer *all)
{
    struct hunk_answer few = hunk_front(bytes, len, NULL, 0);
    *all = few;
    all->number = HUNK_OK;
    expect(few.number == (few.count > 0 ? HUNK_NO_ROOM : HUNK_OK), name, "no text");
    int is_enough = few.count <= len + 12 * (uint64_t)few.hunk + 12 && few.count <= 4 * len;
    expect(is_enough, name, "how long the text is");
    if (few.count > text_room.size)
        exit(3);
    uint8_t *text = marked(&text_room, few.count);
    expect(same(hunk_front(bytes, len, text, few.count), *all), name, "a front");
    if (few.count > 0) {
        uint8_t *small = marked(&again_room, few.count - 1);
        expect(same(hunk_front(bytes, len, small, few.count - 1), few), name, "a byte too few");
        expect(all_marked(small, few.count - 1), name, "text that is too short");
    }
    uint8_t *more = marked(&again_room, few.count + AFTER);
    expect(same(hunk_front(bytes, len, more, few.count + AFTER), *all), name, "room for more");
    expect(memcmp(more, text, few.count) == 0, name, "two texts");
    expect(all_marked(more + few.count, AFTER), name, "text after");
    return text;
}

static void front_row(const struct fronted *row)
{
    static uint8_t wanted[4 * (MOST_LONGS + MOST_CLOSING)];
    uint8_t *bytes = marked(&input_room, row->len);
    put_longs(bytes, row->longs, row->len);
    memcpy(wanted, bytes, row->place);
    put_longs(wanted + row->place, row->closing, 4 * row->closing_len);
    size_t count = row->place + 4 * row->closing_len;
    struct hunk_answer a, all = {HUNK_OK, row->hunks, row->place, count};
    const uint8_t *text = text_of(row->name, bytes, row->len, &a);
    expect(same(a, all), row->name, "the answer");
    expect(a.count == count && memcmp(text, wanted, count) == 0, row->name, "the text");
}

/* The table of many hunks, each of which is closed. */
static void front_many(void)
{
    const uint32_t header[] = {0x3F3, 0, MANY, 0, MANY - 1}, closing[] = {EMPTY};
    size_t len = sizeof header + 4 * MANY;
    uint8_t *bytes = marked(&input_room, len);
    memset(bytes, 0, len);
    put_longs(bytes, header, sizeof header);
    struct hunk_answer a, all = {HUNK_OK, MANY, len, len + MANY * sizeof closing};
    const uint8_t *text = text_of("many hunks", bytes, len, &a);
    expect(same(a, all) && memcmp(text, bytes, len) == 0, "many hunks", "the front");
    uint8_t wanted[sizeof closing];
    put_longs(wanted, closing, sizeof closing);
    for (size_t at = len; at < a.count; at += sizeof closing)
        expect(memcmp(text + at, wanted, sizeof closing) == 0, "many hunks", "a hunk that is left");
}

/* What holds of any input. */
static void front_file(const char *name)
{
    size_t len;
    const uint8_t *bytes = read_file(&input_room, name, &len);
    struct hunk_answer a, of = hunk_check(bytes, len, NULL, 0);
    const uint8_t *text = text_of(name, bytes, len, &a);
    int is_whole = of.number == HUNK_OK || of.number == HUNK_NO_ROOM;
    uint64_t last = is_whole && of.hunk > 0 ? of.place - 4 : of.place;
    expect(a.place <= last, name, "where the front ends");
    expect(!is_whole || (a.place == last && a.count == of.place), name, "a whole file");
    if (a.count == 0) {
        expect(a.hunk == 0 && a.place == 0, name, "no front");
        return;
    }
    expect(memcmp(text, bytes, a.place) == 0, name, "how the text begins");
    struct hunk_answer closed = hunk_check(text, a.count, NULL, 0);
    expect(closed.number == HUNK_OK || closed.number == HUNK_NO_ROOM, name, "the text is no file");
    expect(closed.hunk == a.hunk && closed.place == a.count, name, "the text is another file");
}

int main(int argc, char **argv)
{
    if (!make_guarded(&input_room) || !make_guarded(&text_room) || !make_guarded(&again_room))
        return 3;
    struct hunk_answer none = {HUNK_OK, 0, 0, 0};
    expect(same(hunk_front(NULL, 0, NULL, 0), none), "no bytes", "a front");
    for (size_t i = 0; i < sizeof fronted / sizeof *fronted; i++)
        front_row(&fronted[i]);
    front_many();
    for (int i = 1; i < argc; i++)
        front_file(argv[i]);
    return failures > 0;
}
