/* See careful.h: the table of a load file, and its hunks in memory. */
#include "careful.h"
#include "careful_passing.h"

/* ---- the table */

/* The size word with which the hunks pass the budget. */
static size_t first_above_budget(const struct walk *walk, uint64_t budget)
{
    uint64_t bytes = 0;
    for (size_t entry = TABLE_AT;;) {
        uint32_t word = long_at(walk->bytes, entry);
        bytes += 4 * (uint64_t)(word & SIZE);
        if (bytes > budget)
            return entry;
        entry += longs_of_entry(word);
    }
}

/* The bytes that a header which is not whole has more at least: an entry for each hunk, of which there is one at least.
 */
static uint64_t missing(const struct walk *walk, uint64_t len)
{
    size_t entries = 0, entry = TABLE_AT, hunks = walk->longs < 3 ? 1 : walk->hunks;
    for (; entry < walk->longs; entries++)
        entry += longs_of_entry(long_at(walk->bytes, entry));
    return 4 * (entry + hunks - entries) - len;
}

struct hunk_answer careful_table(const uint8_t *bytes, uint64_t len, uint64_t budget, struct hunk_row *rows,
                                 uint64_t room)
{
    struct walk walk = walk_of(bytes, len);
    uint32_t number = test_header(&walk);
    if ((!number || number == HUNK_TRUNCATED) && walk.declared > budget)
        return answer(HUNK_BUDGET, 0, 4 * first_above_budget(&walk, budget), 0);
    if (number)
        return answer(number, 0, 4 * walk.at, number == HUNK_TRUNCATED ? missing(&walk, len) : 0);
    if (walk.hunks > room)
        return answer(HUNK_NO_ROOM, walk.hunks, 4 * walk.at, walk.declared);
    if (!walk.has_attributes)
        for (uint32_t i = 0; i < walk.hunks; i++) {
            uint32_t word = long_at(bytes, TABLE_AT + (size_t)i);
            rows[i] = (struct hunk_row){word, 0, word << 2, word >> 30};
        }
    else
        for (size_t i = 0, entry = TABLE_AT; i < walk.hunks; i++) {
            uint32_t word = long_at(bytes, entry);
            uint32_t extra = longs_of_entry(word) == 2 ? long_at(bytes, entry + 1) : 0;
            entry += longs_of_entry(word);
            rows[i] = (struct hunk_row){word, extra, word << 2, word >> 30};
        }
    return answer(HUNK_OK, walk.hunks, 4 * walk.at, walk.declared);
}

/* ---- where hunks lie */

/* The base of the first of each so many hunks is kept. */
#define HUNKS_A_MARK 128
#define MOST_MARKS (MOST_HUNKS / HUNKS_A_MARK)

/* Hunks one right after the other, or each at the address that is given. */
enum lying { PACKED, APART };

struct bases {
    const uint8_t *bytes;
    uint32_t base, start;
    const uint32_t *given;
    int has_attributes, is_marked;
    size_t entry[MOST_MARKS];
    uint32_t mark[MOST_MARKS];
};

/* A hunk that is loaded. */
struct loaded {
    uint32_t number, base, bytes;
    size_t entry;
    uint8_t *memory;
};

OUTLINED void mark_bases(struct bases *bases, uint32_t hunks)
{
    uint32_t base = bases->base;
    size_t entry = TABLE_AT;
    for (uint32_t i = 0; i < hunks; i++) {
        if (i % HUNKS_A_MARK == 0) {
            bases->entry[i / HUNKS_A_MARK] = entry;
            bases->mark[i / HUNKS_A_MARK] = base;
        }
        uint32_t word = long_at(bases->bytes, entry);
        entry += longs_of_entry(word);
        base += word << 2;
    }
    bases->is_marked = 1;
}

/* The base of a hunk: that of its mark, and the bytes of the hunks between. */
OUTLINED uint32_t far_base(const struct bases *bases, uint32_t hunk)
{
    const uint8_t *entry = bases->bytes + 4 * bases->entry[hunk / HUNKS_A_MARK];
    uint32_t longs = 0, between = hunk % HUNKS_A_MARK;
    if (bases->has_attributes)
        for (uint32_t i = 0; i < between; i++) {
            longs += get(entry);
            entry += 4 * longs_of_entry(get(entry));
        }
    else
        for (uint32_t i = 0; i < between; i++)
            longs += get(entry + 4 * (size_t)i);
    return bases->mark[hunk / HUNKS_A_MARK] + (longs << 2);
}

/* Most targets are the hunk itself and those beside it, of which no other bases are needed. */
INLINED uint32_t base_of(enum lying lying, struct bases *bases, uint32_t hunks, const struct loaded *from,
                         uint32_t target)
{
    if (lying == APART)
        return bases->given[target];
    if (target == from->number)
        return from->base;
    if (target == from->number + 1)
        return from->base + from->bytes;
    if (target + 1 == from->number && !bases->has_attributes)
        return from->base - (long_at(bases->bytes, from->entry - 1) << 2);
    if (!bases->is_marked)
        mark_bases(bases, hunks);
    return far_base(bases, target);
}

/* ---- the walk that writes */

INLINED size_t fill_content(const uint8_t *bytes, size_t at, const struct loaded *hunk)
{
    size_t longs = long_at(bytes, at) & SIZE, given = 4 * longs;
    memcpy(hunk->memory, bytes + 4 * (at + 1), given);
    if (hunk->bytes > given)
        memset(hunk->memory + given, 0, hunk->bytes - given);
    return at + 1 + longs;
}

INLINED size_t relocate(enum lying lying, const uint8_t *bytes, size_t at, struct bases *bases, uint32_t hunks,
                        const struct loaded *hunk)
{
    for (uint32_t count; (count = long_at(bytes, at++)); at += count) {
        uint32_t add = base_of(lying, bases, hunks, hunk, long_at(bytes, at++));
        const uint8_t *offsets = bytes + 4 * at;
        for (uint32_t i = 0; i < count; i++) {
            uint8_t *to = hunk->memory + get(offsets + 4 * (size_t)i);
            put(to, get(to) + add);
        }
    }
    return at;
}

/* The blocks of a hunk: the longword after its END. */
INLINED size_t fill_hunk(enum lying lying, const uint8_t *bytes, size_t at, struct bases *bases, uint32_t hunks,
                         const struct loaded *hunk)
{
    for (;;) {
        uint32_t kind = long_at(bytes, at++) & KIND;
        switch (kind) {
        case CODE:
        case DATA:
            at = fill_content(bytes, at, hunk);
            break;
        case RELOC32:
            at = relocate(lying, bytes, at, bases, hunks, hunk);
            break;
        case END:
            return at;
        case BSS:
            memset(hunk->memory, 0, hunk->bytes);
            at++;
            break;
        case SYMBOL:
            at = after_symbols(bytes, at);
            break;
        default:
            at = after_counted(bytes, at);
        }
    }
}

INLINED void fill(enum lying lying, const struct walk *walk, struct bases *bases, uint8_t *memory)
{
    struct loaded hunk = {0, bases->base, 0, TABLE_AT, memory};
    size_t at = walk->after_table;
    for (; hunk.number < walk->hunks; hunk.number++) {
        uint32_t word = long_at(walk->bytes, hunk.entry);
        hunk.bytes = word << 2;
        if (lying == APART)
            hunk.memory = memory + (uint32_t)(bases->given[hunk.number] - bases->start);
        at = fill_hunk(lying, walk->bytes, at, bases, walk->hunks, &hunk);
        hunk.entry += longs_of_entry(word);
        hunk.base += hunk.bytes;
        if (lying == PACKED)
            hunk.memory += hunk.bytes;
    }
}

/* The first hunk that passes the address 2^32, or begins there. */
static uint32_t first_without_base(const struct walk *walk, uint32_t base)
{
    uint64_t end = base;
    size_t entry = TABLE_AT;
    for (uint32_t i = 0;; i++) {
        uint32_t word = long_at(walk->bytes, entry);
        uint64_t begins = end;
        entry += longs_of_entry(word);
        end += 4 * (uint64_t)(word & SIZE);
        if (begins >> 32 || end > UINT64_C(1) << 32)
            return i;
    }
}

/* The first hunk that has no base in the memory, or the number of hunks. */
INLINED uint32_t first_outside(const struct walk *walk, const uint32_t *bases, uint64_t bases_len, uint32_t start,
                               uint64_t memory_len)
{
    size_t entry = TABLE_AT;
    for (uint32_t i = 0; i < walk->hunks; i++) {
        uint32_t word = long_at(walk->bytes, entry);
        uint64_t size = 4 * (uint64_t)(word & SIZE);
        entry += longs_of_entry(word);
        if (i >= bases_len || size + bases[i] > UINT64_C(1) << 32 || bases[i] < start)
            return i;
        if (bases[i] - start > memory_len || size > memory_len - (bases[i] - start))
            return i;
    }
    return walk->hunks;
}

/* ---- the calls */

struct hunk_answer careful_load_packed(const uint8_t *bytes, uint64_t len, uint32_t base, uint8_t *memory,
                                       uint64_t memory_len)
{
    struct walk walk = walk_of(bytes, len);
    uint32_t number = test_header(&walk);
    if (number)
        return answer(number, 0, 4 * walk.at, 0);
    if (walk.declared > memory_len)
        return answer(HUNK_NO_ROOM, walk.hunks, 4 * walk.at, walk.declared);
    if (walk.declared > (UINT64_C(1) << 32) - base)
        return answer(HUNK_NO_BASE, first_without_base(&walk, base), 4 * walk.at, 0);
    if ((number = test_hunks(&walk, NOTHING)))
        return answer(number, 0, 4 * walk.at, 0);
    struct bases bases;
    bases.bytes = bytes;
    bases.base = base;
    bases.has_attributes = walk.has_attributes;
    bases.is_marked = 0;
    fill(PACKED, &walk, &bases, memory);
    return answer(HUNK_OK, walk.hunks, 4 * walk.at, walk.declared);
}

struct hunk_answer careful_load_at(const uint8_t *bytes, uint64_t len, const uint32_t *bases_given, uint64_t bases_len,
                                   uint32_t start, uint8_t *memory, uint64_t memory_len)
{
    struct walk walk = walk_of(bytes, len);
    uint32_t number = test_header(&walk);
    if (number)
        return answer(number, 0, 4 * walk.at, 0);
    uint32_t outside = first_outside(&walk, bases_given, bases_len, start, memory_len);
    if (outside < walk.hunks)
        return answer(HUNK_NO_BASE, outside, 4 * walk.at, 0);
    if ((number = test_hunks(&walk, NOTHING)))
        return answer(number, 0, 4 * walk.at, 0);
    struct bases bases;
    bases.bytes = bytes;
    bases.given = bases_given;
    bases.base = bases.start = start;
    fill(APART, &walk, &bases, memory);
    return answer(HUNK_OK, walk.hunks, 4 * walk.at, walk.declared);
}
