/* The parts of a file: see hand.h. The file is tested by hand_check, and then walked over once more. */
#include "hand.h"
#include <string.h>

/* A longword, high byte first. */
static inline uint32_t be(const uint8_t *p)
{
    uint32_t v;
    memcpy(&v, p, 4);
    return __builtin_bswap32(v);
}

/* Where the walk stands, and the rows so far. */
struct walk {
    const uint8_t *b;
    size_t at, n, room;
    struct hunk_part *rows;
};

/* So many longwords, which are passed over. */
struct run {
    uint64_t start, count;
};

static const struct run none;

static inline void put(struct walk *w, uint32_t what, uint32_t word, uint32_t value, struct run content,
                       struct run offsets)
{
    if (w->n < w->room)
        w->rows[w->n] = (struct hunk_part){what, word, value, 0, content.start, 4 * content.count,
                                           offsets.start, offsets.count};
    w->n++;
}

static inline uint32_t next(struct walk *w)
{
    w->at += 4;
    return be(w->b + w->at - 4);
}

static inline struct run pass(struct walk *w, uint32_t count)
{
    struct run r = {w->at, count};
    w->at += 4 * (size_t)count;
    return r;
}

static inline int relocates(uint32_t kind)
{
    return (kind >= 0x3EC && kind <= 0x3EE) || (kind >= 0x3F7 && kind <= 0x3F9) || kind == 0x3FD ||
           kind == 0x3FE;
}

static void groups(struct walk *w)
{
    for (uint32_t n; (n = next(w)) != 0;) {
        uint32_t target = next(w);
        put(w, HUNK_PART_GROUP, target, 0, none, pass(w, n));
    }
}

static void symbols(struct walk *w)
{
    for (uint32_t word; (word = next(w)) != 0;) {
        struct run name = pass(w, word & 0xffffff);
        put(w, HUNK_PART_SYMBOL, word >> 24, next(w), name, none);
    }
}

static void entries(struct walk *w)
{
    for (uint32_t word; (word = next(w)) != 0;) {
        uint32_t kind = word >> 24;
        struct run name = pass(w, word & 0xffffff);
        uint32_t value = kind <= 2 || kind == 130 || kind == 137 ? next(w) : 0;
        put(w, HUNK_PART_ENTRY, kind, value, name, pass(w, kind > 2 ? next(w) : 0));
    }
}

static void block(struct walk *w, uint32_t word)
{
    uint32_t kind = word & 0x1fffffff;
    if (kind == 0x3E9 || kind == 0x3EA) {
        uint32_t size = next(w);
        put(w, HUNK_PART_BLOCK, word, size & 0xc0000000, pass(w, size & 0x3fffffff), none);
    } else if (kind == 0x3EB) {
        put(w, HUNK_PART_BLOCK, word, next(w), none, none);
    } else if (kind == 0x3F2 || kind == 0x3EF || kind == 0x3F0 || relocates(kind)) {
        put(w, HUNK_PART_BLOCK, word, 0, none, none);
        if (kind == 0x3EF) entries(w);
        if (kind == 0x3F0) symbols(w);
        if (relocates(kind)) groups(w);
    } else {
        put(w, HUNK_PART_BLOCK, word, 0, pass(w, next(w)), none);
    }
}

static void load_file(struct walk *w, uint32_t hunks)
{
    size_t entry = 20;
    w->at = 20;
    for (uint32_t i = 0; i < hunks; i++) w->at += be(w->b + w->at) >> 30 == 3 ? 8 : 4;
    for (uint32_t i = 0; i < hunks; i++) {
        uint32_t size = be(w->b + entry), extra = size >> 30 == 3 ? be(w->b + entry + 4) : 0, word;
        put(w, HUNK_PART_HUNK, size, extra, none, none);
        entry += size >> 30 == 3 ? 8 : 4;
        do block(w, word = next(w));
        while ((word & 0x1fffffff) != 0x3F2);
    }
}

struct hand_answer hand_parts(const uint8_t *b, size_t len, struct hunk_part *rows, size_t n)
{
    struct hand_answer a = hand_check(b, len, NULL, 0);
    if (a.err && a.err != HUNK_NO_ROOM) return a;
    struct walk w = {b, 0, 0, n, rows};
    if (a.hunks) load_file(&w, a.hunks);
    while (!a.hunks && w.at < len) {
        uint32_t word = next(&w);
        if (word == 0x3E7)
            put(&w, HUNK_PART_UNIT, 0, 0, pass(&w, next(&w)), none);
        else
            block(&w, word);
    }
    a.err = w.n > n ? HUNK_NO_ROOM : 0;
    a.count = w.n;
    return a;
}
