/* hunk_load_at: by bytes that were worked out by hand, at drawn places, on many hunks, and on FILE..,
 * against hunk_load: places FILE.. Status 1 where an answer, or what it leaves in the caller's
 * memory, is not what hunk.h says. */
#include "guarded.h"

#define BUDGET (UINT64_C(1) << 24) /* that of the program */
#define MOST_HUNKS 65536
#define MOST_GAP 3
#define START UINT32_C(0x40000)
#define RAM 64    /* bytes of a small memory */
#define HEADER 28 /* of a file of two hunks */
#define HUNKS 2
#define MANY 5000
#define STEP 12        /* from one of many hunks to the next */
#define DRAWS 200000
#define TABLE_LONGS 5  /* longwords of a header before its table */

static struct guarded file_bytes = {1 << 20, NULL};
static struct guarded row_room = {MOST_HUNKS * sizeof(struct hunk_row), NULL};
static struct guarded base_room = {MOST_HUNKS * 4, NULL};
static struct guarded image_room = {(1 << 24) + PAGE, NULL};
static struct guarded ram_room = {(1 << 24) + MOST_GAP * (MOST_HUNKS + 1), NULL};

/* A code hunk of 8 bytes, which refers to byte 4 of the data hunk; that has 12 bytes, the last four
 * without content, and refers to the code hunk. */
static const uint32_t longs[] = {
    0x3F3, 0, HUNKS, 0, 1, 2, 3, 0x3E9, 2, 0x4E714E71, 4, 0x3EC, 1, 1, 4, 0, 0x3F2,
    0x3EA, 2, 0x11223344, 0, 0x3EC, 1, 0, 4, 0, 0x3F2};
static const uint32_t sizes[HUNKS] = {8, 12};
static uint8_t file[sizeof longs];

/* A hunk of one longword, which refers to another one. */
static const uint32_t hunk_longs[] = {0x3E9, 1, 0, 0x3EC, 1, 0, 0, 0, 0x3F2};
static uint8_t many[4 * (TABLE_LONGS + MANY) + MANY * sizeof hunk_longs];

static void put_longs(uint8_t *bytes, const uint32_t *from, size_t len)
{
    for (size_t i = 0; i < len; i++)
        bytes[i] = (uint8_t)(from[i / 4] >> (24 - 8 * (i % 4)));
}

/* A load of the small file, at these bases in a memory of so many bytes from this address on. */
static struct hunk_answer placed(const uint32_t *bases, size_t count, uint32_t start, size_t room)
{
    uint32_t *at = marked(&base_room, count * sizeof *at);
    memcpy(at, bases, count * sizeof *at);
    return hunk_load_at(file, sizeof file, at, count, start, marked(&ram_room, room), room);
}

static const uint8_t *ram(size_t room) { return ram_room.end - room; }

static void by_hand(void)
{
    static const uint8_t code[] = {0x4E, 0x71, 0x4E, 0x71, 0x00, 0x04, 0x00, 0x0F};
    static const uint8_t data[] = {0x11, 0x22, 0x33, 0x44, 0x00, 0x04, 0x00, 0x20, 0, 0, 0, 0};
    static const uint32_t bases[] = {START + 0x20, START + 0x0B};
    struct hunk_answer all = {HUNK_OK, HUNKS, sizeof file, 20};
    expect(same(placed(bases, HUNKS, START, RAM), all), "by hand", "the answer");
    const uint8_t *at = ram(RAM);
    expect(memcmp(at + 0x20, code, sizeof code) == 0, "by hand", "the code hunk");
    expect(memcmp(at + 0x0B, data, sizeof data) == 0, "by hand", "the data hunk");
    expect(all_marked(at, 0x0B), "by hand", "memory before");
    expect(all_marked(at + 0x17, 0x09), "by hand", "memory between");
    expect(all_marked(at + 0x28, RAM - 0x28), "by hand", "memory after");
}

/* That a load at these bases names this hunk for want of a base, or loads the file where it is none
 * of the file's; and that it writes nothing where it is one. */
static void placing(const char *name, uint32_t code, uint32_t data, size_t count, uint32_t start,
                    size_t room, uint32_t hunk)
{
    const uint32_t bases[] = {code, data, 0};
    struct hunk_answer all = {HUNK_OK, HUNKS, sizeof file, 20};
    struct hunk_answer no_base = {HUNK_NO_BASE, hunk, HEADER, 0};
    struct hunk_answer a = placed(bases, count, start, room);
    expect(same(a, hunk < HUNKS ? no_base : all), name, "the answer");
    expect(hunk == HUNKS || all_marked(ram(room), room), name, "memory after a refusal");
}

static void refusals(void)
{
    const uint32_t end = START + RAM;
    placing("no bases", 0, 0, 0, START, RAM, 0);
    placing("one base", START, 0, 1, START, RAM, 1);
    placing("three bases", START, START + 8, 3, START, RAM, HUNKS);
    placing("before the memory", START - 1, START + 8, 2, START, RAM, 0);
    placing("the last before the memory", START, START - 1, 2, START, RAM, 1);
    placing("both before the memory, one base", START - 1, 0, 1, START, RAM, 0);
    placing("up to the end", end - 8, end - 20, 2, START, RAM, HUNKS);
    placing("the first past the end", end - 7, end - 20, 2, START, RAM, 0);
    placing("the last past the end", end - 20, end - 11, 2, START, RAM, 1);
    placing("far past the end", START, UINT32_MAX, 2, START, RAM, 1);
    placing("at address 0", 0, 8, 2, 0, RAM, HUNKS);
    placing("no memory", START, START, 2, START, 0, 0);
    /* A memory that goes on after the last address. */
    placing("up to 2^32", UINT32_MAX - 7, UINT32_MAX - 11, 2, UINT32_MAX - 15, RAM, HUNKS);
    placing("past 2^32", UINT32_MAX - 7, UINT32_MAX - 10, 2, UINT32_MAX - 15, RAM, 1);
    /* The header of a file that is cut, which has no base for its last hunk, and then has. */
    struct hunk_answer no_base = {HUNK_NO_BASE, 1, HEADER, 0};
    struct hunk_answer cut = {HUNK_TRUNCATED, 0, sizeof file - 4, 0};
    const uint32_t bases[] = {START, START + 8};
    uint8_t *at = marked(&ram_room, RAM);
    struct hunk_answer a = hunk_load_at(file, sizeof file - 1, bases, 1, START, at, RAM);
    expect(same(a, no_base), "a cut file", "one base");
    a = hunk_load_at(file, sizeof file - 1, bases, 2, START, at, RAM);
    expect(same(a, cut), "a cut file", "the answer");
    expect(all_marked(at, RAM), "a cut file", "memory");
    struct hunk_answer none = {HUNK_TRUNCATED, 0, 0, 0};
    expect(same(hunk_load_at(NULL, 0, NULL, 0, 0, NULL, 0), none), "no bytes", "the answer");
}

/* A number, the next of those that are drawn (xorshift). */
static uint64_t any(void)
{
    static uint64_t state = 1;
    state ^= state << 13;
    state ^= state >> 7;
    return state ^= state << 17;
}

/* The small file at drawn places, in part outside of the memory, and one over the other: each byte
 * that one hunk alone has is that of what hunk_load makes, and each that none has is as it was. */
static void drawn(void)
{
    for (uint32_t draw = 0; draw < DRAWS; draw++) {
        uint32_t start = any() % 2 ? START : UINT32_MAX - RAM / 2;
        uint32_t bases[HUNKS], hunk = HUNKS;
        uint8_t image[20];
        for (uint32_t h = HUNKS; h-- > 0;) {
            bases[h] = start - 2 + (uint32_t)(any() % (RAM + 4));
            uint64_t last = (uint64_t)bases[h] + sizes[h];
            if (bases[h] < start || last > (uint64_t)start + RAM || last > UINT64_C(1) << 32)
                hunk = h;
        }
        placing("at drawn places", bases[0], bases[1], HUNKS, start, RAM, hunk);
        if (hunk < HUNKS)
            continue;
        hunk_load(file, sizeof file, bases, HUNKS, image, sizeof image);
        for (uint32_t i = 0; i < RAM; i++) {
            uint32_t in_code = start + i - bases[0], in_data = start + i - bases[1];
            uint8_t want = MARK;
            if (in_code < sizes[0] && in_data < sizes[1])
                continue;
            if (in_code < sizes[0])
                want = image[in_code];
            if (in_data < sizes[1])
                want = image[sizes[0] + in_data];
            expect(ram(RAM)[i] == want, "at drawn places", "a byte");
        }
    }
}

/* Many hunks, the last first, with room between them. */
static void many_reversed(void)
{
    const uint32_t header[TABLE_LONGS] = {0x3F3, 0, MANY, 0, MANY - 1};
    const uint32_t size = 1;
    uint32_t *bases = marked(&base_room, MANY * sizeof *bases);
    uint8_t *at = many + sizeof header;
    put_longs(many, header, sizeof header);
    for (uint32_t i = 0; i < MANY; i++, at += sizeof size)
        put_longs(at, &size, sizeof size);
    for (uint32_t i = 0; i < MANY; i++, at += sizeof hunk_longs) {
        const uint32_t target = (i * 1777 + 1) % MANY;
        put_longs(at, hunk_longs, sizeof hunk_longs);
        put_longs(at + 8, &i, sizeof i);
        put_longs(at + 20, &target, sizeof target);
        bases[i] = START + STEP * (MANY - 1 - i) + 5;
    }
    uint8_t *memory = marked(&ram_room, STEP * MANY);
    struct hunk_answer all = {HUNK_OK, MANY, sizeof many, 4 * MANY};
    struct hunk_answer a = hunk_load_at(many, sizeof many, bases, MANY, START, memory, STEP * MANY);
    expect(same(a, all), "many hunks", "the answer");
    for (uint32_t i = 0; i < MANY; i++) {
        const uint32_t want = i + bases[(i * 1777 + 1) % MANY];
        uint8_t bytes[4];
        put_longs(bytes, &want, sizeof want);
        const uint8_t *here = memory + STEP * (MANY - 1 - i);
        expect(memcmp(here + 5, bytes, sizeof bytes) == 0, "many hunks", "a hunk");
        expect(all_marked(here, 5) && all_marked(here + 9, STEP - 9), "many hunks", "beside a hunk");
    }
}

/* A file with its last hunk first, and up to so many bytes between two. */
static void reversed(const char *name)
{
    size_t len;
    const uint8_t *bytes = read_file(&file_bytes, name, &len);
    struct hunk_row *rows = marked(&row_room, row_room.size);
    struct hunk_answer table = hunk_table(bytes, len, BUDGET, rows, MOST_HUNKS);
    if (table.number != HUNK_OK) {
        struct hunk_answer a = hunk_load_at(bytes, len, NULL, 0, START, NULL, 0);
        table.count = 0;
        expect(same(a, table) || table.number == HUNK_BUDGET, name, "a header that is refused");
        return;
    }
    uint32_t *bases = marked(&base_room, table.hunk * sizeof *bases);
    size_t room = 0;
    for (uint32_t h = table.hunk; h-- > 0;) {
        room += h % (MOST_GAP + 1);
        bases[h] = START + (uint32_t)room;
        room += rows[h].bytes;
    }
    room += MOST_GAP;
    uint8_t *image = marked(&image_room, table.count);
    struct hunk_answer want = hunk_load(bytes, len, bases, table.hunk, image, table.count);
    uint8_t *memory = marked(&ram_room, room);
    struct hunk_answer a = hunk_load_at(bytes, len, bases, table.hunk, START, memory, room);
    expect(same(a, want), name, "hunk_load_at and hunk_load");
    if (a.number != HUNK_OK) {
        expect(all_marked(memory, room), name, "memory after a refusal");
        return;
    }
    for (uint32_t h = 0; h < table.hunk; image += rows[h].bytes, h++) {
        const uint8_t *at = memory + (bases[h] - START);
        size_t gap = h % (MOST_GAP + 1);
        expect(memcmp(at, image, rows[h].bytes) == 0, name, "a hunk");
        expect(all_marked(at - gap, gap), name, "memory before a hunk");
    }
    expect(all_marked(memory + room - MOST_GAP, MOST_GAP), name, "memory after the hunks");
}

int main(int argc, char **argv)
{
    if (argc < 2 || !make_guarded(&file_bytes) || !make_guarded(&row_room) ||
        !make_guarded(&base_room) || !make_guarded(&image_room) || !make_guarded(&ram_room))
        return 3;
    put_longs(file, longs, sizeof file);
    by_hand();
    refusals();
    drawn();
    many_reversed();
    for (int i = 1; i < argc; i++)
        reversed(argv[i]);
    return failures > 0;
}
