/* The warnings of a hunk with 4,194,304 relocations, and of a file of 65,536 hunks. With the word
 * --few there are a sixteenth of the relocations. Each row that has to be there follows from how
 * the file is made. Room and rows end where a page begins that faults. It takes some 40 seconds of
 * a processor, or 2, and may take 300, or 30: a call that compares each offset with each would take
 * hours, or minutes. Status 1 where an answer, or what it leaves in the caller's memory, is not
 * what hunk.h says. */
#include "guarded.h"
#include <sys/resource.h>

#define SECONDS 300
#define FEW_SECONDS 30
#define MOST (UINT32_C(1) << 22) /* relocations */
#define MOST_ROWS (MOST + MOST / 2 + 1)
#define HUNKS UINT32_C(65536)
#define FRONT 11                 /* longwords before the target of the relocations */
#define FAR UINT32_C(0x7F000000) /* the first longword of the hunk: it leads outside */
#define CHIP (UINT32_C(1) << 30)

static struct guarded file_room = {4 * (FRONT + MOST + 3), NULL};
static struct guarded element_room = {4 * (MOST + 2), NULL};
static struct guarded row_room = {MOST_ROWS * sizeof(struct hunk_warning), NULL};
static uint32_t relocations = MOST;

/* The file that is made, and what the call has to answer of it. */
struct made {
    const char *name;
    uint8_t *bytes;
    size_t len;
    uint32_t hunks;
    uint64_t room, rows;
};

static void put(struct made *f, uint32_t longword)
{
    for (int shift = 24; shift >= 0; shift -= 8)
        f->bytes[f->len++] = (uint8_t)(longword >> shift);
}

/* ---- The calls. */

static struct hunk_answer ask(const struct made *f, uint64_t room, struct hunk_warning *rows,
                              uint64_t count)
{
    uint32_t *elements = marked(&element_room, room * sizeof *elements);
    return hunk_warnings(f->bytes, f->len, elements, room, rows, count);
}

/* With an element of room too few, or a row too few, nothing is written. */
static void try_too_little(const struct made *f, uint64_t room, uint64_t count, uint64_t needed)
{
    struct hunk_warning *rows = marked(&row_room, count * sizeof *rows);
    struct hunk_answer few = {HUNK_NO_ROOM, f->hunks, f->len, needed};
    expect(same(ask(f, room, rows, count), few), f->name, "too little");
    expect(all_marked(rows, count * sizeof *rows), f->name, "rows where there is too little");
}

/* The rows, by calls with as much as is needed, and with less. */
static const struct hunk_warning *ask_all(const struct made *f)
{
    try_too_little(f, f->room - 1, f->rows, 0);
    try_too_little(f, f->room, f->rows - 1, f->rows);
    struct hunk_warning *rows = marked(&row_room, f->rows * sizeof *rows);
    struct hunk_answer all = {HUNK_OK, f->hunks, f->len, f->rows};
    expect(same(ask(f, f->room, rows, f->rows), all), f->name, "hunk_warnings");
    return rows;
}

/* Whether the row is this one. */
static int is_row(const struct hunk_warning *row, struct hunk_warning wanted, uint32_t kind)
{
    wanted.kind = kind;
    return memcmp(row, &wanted, sizeof wanted) == 0;
}

/* ---- A hunk with many relocations. */

/* The offset of the i-th relocation: the multiples of the step, each once, out of order. Where the
 * step is 0 all are the same. */
static uint32_t offset_of(uint32_t i, uint32_t step)
{
    if (step == 0)
        return 4;
    return step * ((i * UINT32_C(2654435761) + 12345) & (relocations - 1));
}

/* The least offset that is close to this one, where each has one. */
static uint32_t least_other(uint32_t offset)
{
    if (offset < 3)
        return offset == 0;
    return offset - 3;
}

/* A CODE hunk of one longword, declared as long as is needed, and relocated at these offsets. */
static void put_relocations(struct made *f, uint32_t step)
{
    const uint32_t front[FRONT] = {0x3F3, 0, 1, 0, 0, relocations, 0x3E9, 1, FAR,
                                   0x3EC, relocations};
    f->bytes = file_room.end - 4 * (size_t)(FRONT + relocations + 3);
    f->hunks = 1;
    f->room = relocations + 1;
    for (int i = 0; i < FRONT; i++)
        put(f, front[i]);
    put(f, 0);
    for (uint32_t i = 0; i < relocations; i++)
        put(f, offset_of(i, step));
    put(f, 0);
    put(f, 0x3F2);
}

/* There are so many rows: Twice of each offset where they are equal, Overlap of each where they are
 * 1 apart, OddOffset of the odd ones, and OutsideTarget of offset 0. */
static void warned_of(const char *name, uint32_t step, uint64_t count)
{
    struct made f = {name, NULL, 0, 0, 0, count};
    put_relocations(&f, step);
    const struct hunk_warning *row = ask_all(&f), *end = row + count;
    for (uint32_t i = 0; i < relocations && failures == 0; i++) {
        uint32_t offset = offset_of(i, step);
        uint32_t value = offset == 0 ? FAR : 0;
        struct hunk_warning here = {4 * (FRONT + 1 + (uint64_t)i), 0, 0, offset, 0, value, 0, 0};
        if (offset % 2 == 1)
            expect(is_row(row++, here, HUNK_WARNING_ODD_OFFSET), name, "OddOffset");
        if (step == 0)
            expect(is_row(row++, here, HUNK_WARNING_TWICE), name, "Twice");
        here.other = step == 1 ? least_other(offset) : 0;
        if (step == 1)
            expect(is_row(row++, here, HUNK_WARNING_OVERLAP), name, "Overlap");
        here.other = 0;
        if (offset == 0)
            expect(is_row(row++, here, HUNK_WARNING_OUTSIDE_TARGET), name, "OutsideTarget");
    }
    expect(failures > 0 || row == end, name, "how many rows there are");
}

/* ---- Many hunks. */

/* What stands in each hunk: content, a relocation whose target is the hunk as far from the end, and
 * a symbol. Each second hunk has 8 bytes, the others 4; each fourth asks for chip memory, and the
 * table does not. */
static void put_hunks(struct made *f)
{
    f->bytes = file_room.end - 4 * (size_t)(5 + HUNKS + 14 * HUNKS);
    const uint32_t front[] = {0x3F3, 0, HUNKS, 0, HUNKS - 1};
    for (int i = 0; i < 5; i++)
        put(f, front[i]);
    for (uint32_t h = 0; h < HUNKS; h++)
        put(f, 1 + h % 2);
    for (uint32_t h = 0; h < HUNKS; h++) {
        uint32_t memory = h % 4 == 3 ? CHIP : 0, target = HUNKS - 1 - h;
        const uint32_t blocks[] = {0x3E9 | memory, 1, 8, 0x3EC, 1, target, 0, 0,
                                   0x3F0, 1, 0x61000000, 8, 0, 0x3F2};
        for (int i = 0; i < 14; i++)
            put(f, blocks[i]);
    }
}

/* The longword 8 leads outside of a target of 4 bytes, which an odd hunk has. A symbol of the value
 * 8 is outside of an even hunk. */
static void warned_of_hunks(void)
{
    struct made f = {"warnings of many hunks", NULL, 0, HUNKS, HUNKS + 1, HUNKS + HUNKS / 4};
    put_hunks(&f);
    const struct hunk_warning *row = ask_all(&f), *end = row + f.rows;
    for (uint32_t h = 0; h < HUNKS && failures == 0; h++) {
        uint64_t place = 4 * (5 + (uint64_t)HUNKS + 14 * (uint64_t)h);
        struct hunk_warning ignored = {place, h, 0, 0, 0, 1, 0, 0};
        struct hunk_warning outside = {place + 24, h, 0, 0, HUNKS - 1 - h, 8, 0, 0};
        struct hunk_warning symbol = {place + 36, h, 0, 0, h, 8, 0, 0};
        if (h % 4 == 3)
            expect(is_row(row++, ignored, HUNK_WARNING_MEMORY_IGNORED), f.name, "MemoryIgnored");
        if (h % 2 == 1)
            expect(is_row(row++, outside, HUNK_WARNING_OUTSIDE_TARGET), f.name, "OutsideTarget");
        else
            expect(is_row(row++, symbol, HUNK_WARNING_SYMBOL_OUTSIDE), f.name, "SymbolOutside");
    }
    expect(failures > 0 || row == end, f.name, "how many rows there are");
}

int main(int argc, char **argv)
{
    int few = argc == 2 && strcmp(argv[1], "--few") == 0;
    const rlim_t seconds = few ? FEW_SECONDS : SECONDS;
    const struct rlimit most = {seconds, seconds};
    if (!make_guarded(&file_room) || !make_guarded(&element_room) || !make_guarded(&row_room) ||
        setrlimit(RLIMIT_CPU, &most) != 0)
        return 3;
    if (few)
        relocations = MOST / 16;
    warned_of("relocations that are all equal", 0, relocations);
    warned_of("relocations that are 1 apart", 1, relocations + relocations / 2 + 1);
    warned_of("relocations that are 4 apart", 4, 1);
    warned_of_hunks();
    return failures > 0;
}
