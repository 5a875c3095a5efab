/* What stands in a file, item by item, found in one walk: see hand.h. The rows are those of hunk.h. */
#include "hand.h"
#include <string.h>

/* A longword, high byte first. */
static inline uint32_t be(const uint8_t *p)
{
    uint32_t v;
    memcpy(&v, p, 4);
    return __builtin_bswap32(v);
}

/* Where the walk stands, and the rows of its table so far. */
struct walk {
    const uint8_t *b;
    size_t len, at;
    enum hand_table table;
    void *rows;
    size_t n, room;
    uint64_t unit, hunk, entry;
    int load, err;
};

/* A row, where there is room for it. */
#define PUT(type, ...) \
    do { \
        if (w->n < w->room) ((struct type *)w->rows)[w->n] = (struct type){__VA_ARGS__}; \
        w->n++; \
    } while (0)
#define STOP(number) \
    do { \
        w->err = number; \
        return 0; \
    } while (0)

static inline int need(struct walk *w, uint32_t longs)
{
    if ((w->len - w->at) / 4 >= longs) return 1;
    w->err = HUNK_TRUNCATED;
    return 0;
}

static inline int next(struct walk *w, uint32_t *v)
{
    if (!need(w, 1)) return 0;
    *v = be(w->b + w->at);
    w->at += 4;
    return 1;
}

static uint64_t text_len(const uint8_t *b, size_t len)
{
    const uint8_t *zero = memchr(b, 0, len);
    return zero ? (uint64_t)(zero - b) : len;
}

/* So many longwords, which a block's count says. */
static int pass(struct walk *w, int is_name)
{
    uint32_t n;
    if (!next(w, &n)) return 0;
    if (is_name && n >> 24) STOP(HUNK_NAME_WORD);
    if (!need(w, n)) return 0;
    w->at += 4 * (size_t)n;
    return 1;
}

static int symbols(struct walk *w, uint64_t *items)
{
    uint32_t n;
    for (;; ++*items) {
        size_t start = w->at;
        if (!next(w, &n)) return 0;
        if (!n) return 1;
        n &= 0xffffff;
        if (!need(w, n + 1)) return 0;
        w->at += 4 * (size_t)n;
        if (w->table == HAND_SYMBOLS)
            PUT(hunk_symbol, start, w->unit, w->hunk, start + 4,
                text_len(w->b + start + 4, 4 * (size_t)n), be(w->b + w->at), 0);
        w->at += 4;
    }
}

static int relocations(struct walk *w, uint32_t kind, uint32_t width, uint32_t hunks, uint64_t size,
                       uint64_t *items)
{
    uint32_t n, target;
    for (;; *items += n) {
        if (!next(w, &n)) return 0;
        if (!n) return 1;
        if (w->load && !size) STOP(HUNK_NOTHING_TO_RELOCATE);
        if (!next(w, &target)) return 0;
        if (w->load && target >= hunks) STOP(HUNK_BAD_TARGET);
        if (!need(w, n)) return 0;
        if (!w->load && w->table != HAND_RELOCATIONS) {
            w->at += 4 * (size_t)n;
            continue;
        }
        for (uint32_t i = 0; i < n; i++, w->at += 4) {
            uint32_t o = be(w->b + w->at);
            if (w->load && o > size - 4) STOP(HUNK_BAD_OFFSET);
            if (w->table == HAND_RELOCATIONS)
                PUT(hunk_relocation, w->at, w->unit, w->hunk, kind, width, target, o, 0);
        }
    }
}

static int entry(struct walk *w, size_t start, uint32_t word)
{
    static const uint8_t widths[] = {4, 4, 2, 1, 4, 2, 1, 4, 4, 2, 1};
    uint32_t kind = word >> 24, name = word & 0xffffff, value = 0, n = 0;
    if (!need(w, name)) return 0;
    w->at += 4 * (size_t)name;
    if (kind > 2 && (kind < 129 || kind > 139)) STOP(HUNK_EXT_KIND);
    if ((kind <= 2 || kind == 130 || kind == 137) && !next(w, &value)) return 0;
    if (kind > 2 && !next(w, &n)) return 0;
    if (!need(w, n)) return 0;
    if (w->table == HAND_ENTRIES)
        PUT(hunk_entry, start, w->unit, w->hunk, start + 4,
            text_len(w->b + start + 4, 4 * (size_t)name), n, value, kind, 0);
    if (w->table == HAND_REFERENCES)
        for (uint32_t i = 0; i < n; i++)
            PUT(hunk_reference, w->entry, w->at + 4 * (size_t)i, be(w->b + w->at + 4 * (size_t)i),
                widths[kind - 129], 0);
    w->at += 4 * (size_t)n;
    w->entry++;
    return 1;
}

static int entries(struct walk *w, uint64_t *items)
{
    uint32_t word;
    for (;; ++*items) {
        size_t start = w->at;
        if (!next(w, &word)) return 0;
        if (!word) return 1;
        if (!entry(w, start, word)) return 0;
    }
}

/* How many bytes an offset of such a block stands for; 0 of other blocks. */
static uint32_t width_of(uint32_t kind)
{
    switch (kind) {
    case 0x3EC:
    case 0x3F7:
    case 0x3FD: return 4;
    case 0x3ED:
    case 0x3F8:
    case 0x3FE: return 2;
    case 0x3EE:
    case 0x3F9: return 1;
    }
    return 0;
}

/* What stands after the word of a block of a hunk with so many bytes. */
static int body(struct walk *w, struct hunk_block *row, uint32_t declared, uint32_t hunks,
                int *content, uint64_t *size)
{
    uint32_t kind = row->kind, width, n;
    switch (kind) {
    case 0x3E9:
    case 0x3EA:
    case 0x3EB:
        if (*content) STOP(HUNK_SECOND_CONTENT);
        if (!next(w, &n)) return 0;
        n &= 0x3fffffff;
        if (w->load && n > declared) STOP(HUNK_CONTENT_TOO_LONG);
        *content = 1;
        row->memory = 4ull * n;
        *size = w->load ? 4ull * declared : row->memory;
        if (kind == 0x3EB) return 1;
        if (!need(w, n)) return 0;
        row->content = w->at;
        row->content_bytes = row->memory;
        w->at += 4 * (size_t)n;
        return 1;
    case 0x3F0: return symbols(w, &row->items);
    case 0x3EF:
        if (w->load) STOP(HUNK_NOT_IN_LOAD_FILE);
        if (!*content) STOP(HUNK_BEFORE_CONTENT);
        return entries(w, &row->items);
    case 0x3F2:
        if (!*content) STOP(HUNK_NO_CONTENT);
        return 1;
    }
    if ((width = width_of(kind))) {
        if (w->load && kind != 0x3EC) STOP(HUNK_NOT_IN_LOAD_FILE);
        if (!*content) STOP(HUNK_BEFORE_CONTENT);
        return relocations(w, kind, width, hunks, *size, &row->items);
    }
    if (kind != 0x3E8 && kind != 0x3F1 && ((kind >= 999 && kind <= 1022) || !(row->flags & 1)))
        STOP(HUNK_UNKNOWN_BLOCK);
    row->content = w->at + 4;
    if (!pass(w, kind == 0x3E8)) return 0;
    row->content_bytes = w->at - row->content;
    return 1;
}

/* A hunk, up to its END. */
static int hunk(struct walk *w, uint32_t declared, uint32_t hunks)
{
    int content = 0;
    uint64_t size = 0;
    uint32_t word;
    do {
        size_t start = w->at;
        if (!next(w, &word)) return 0;
        if (word >> 30 == 3) STOP(HUNK_BOTH_BITS);
        struct hunk_block row = {start, 0, w->unit, w->hunk, 0, 0, 0, 0, word & 0x1fffffff,
                                 word >> 29, 0};
        if (!body(w, &row, declared, hunks, &content, &size)) return 0;
        row.bytes = w->at - start;
        if (w->table == HAND_BLOCKS) {
            if (w->n < w->room) ((struct hunk_block *)w->rows)[w->n] = row;
            w->n++;
        }
    } while ((word & 0x1fffffff) != 0x3F2);
    w->hunk++;
    return 1;
}

static int unit(struct walk *w)
{
    uint32_t word, n;
    size_t start = w->at;
    if (!next(w, &word) || !next(w, &n)) return 0;
    if (word != 0x3E7) STOP(HUNK_MISPLACED);
    if (n >> 24) STOP(HUNK_NAME_WORD);
    if (!need(w, n)) return 0;
    w->at += 4 * (size_t)n;
    w->hunk = 0;
    while (w->at < w->len && !(w->len - w->at >= 4 && be(w->b + w->at) == 0x3E7))
        if (!hunk(w, 0, 0)) return 0;
    if (w->table == HAND_UNITS)
        PUT(hunk_unit, start, start + 8, text_len(w->b + start + 8, 4 * (size_t)n), w->hunk, 0);
    w->unit++;
    return 1;
}

struct hand_answer hand_items(enum hand_table table, const uint8_t *b, size_t len, void *rows,
                              size_t n)
{
    struct walk walk = {b, len, 0, table, rows, 0, n, 0, 0, 0, 0, 0}, *w = &walk;
    struct hand_answer a = {0, 0, 0, 0};
    if (len >= 4 && be(b) == 0x3E7) {
        while (w->at < len && unit(w))
            ;
    } else if (len < 20 || be(b) != 0x3F3 || be(b + 4) || !be(b + 8) || be(b + 8) > 65536 ||
               be(b + 12) || be(b + 16) != be(b + 8) - 1) {
        w->err = HUNK_NOT_LOAD_FILE;
    } else {
        size_t size = 20;
        a.hunks = be(b + 8);
        w->load = 1;
        w->at = 20;
        for (uint32_t i = 0; i < a.hunks && need(w, 2); i++)
            w->at += be(b + w->at) >> 30 == 3 ? 8 : 4;
        for (uint32_t i = 0; i < a.hunks && !w->err; i++) {
            uint32_t word = be(b + size);
            size += word >> 30 == 3 ? 8 : 4;
            hunk(w, word & 0x3fffffff, a.hunks);
        }
    }
    a.err = w->err ? w->err : w->n > n ? (int)HUNK_NO_ROOM : 0;
    a.place = w->at;
    a.count = w->n;
    return a;
}
