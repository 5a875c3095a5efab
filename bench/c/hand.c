/* See hand.h. The numbers of faults are those of hunk.h. */
#include "hand.h"
#include <stdlib.h>
#include <string.h>

/* A longword, high byte first. */
static inline uint32_t be(const uint8_t *p)
{
    uint32_t v;
    memcpy(&v, p, 4);
    return __builtin_bswap32(v);
}

static inline void put(uint8_t *p, uint32_t v)
{
    v = __builtin_bswap32(v);
    memcpy(p, &v, 4);
}

/* A refusal, at the byte `at`. */
#define FAIL(n) \
    do { \
        struct hand_answer a = {n, 0, at, 0}; \
        return a; \
    } while (0)
/* In a function that gives its memory back at `out`. */
#define STOP(n) \
    do { \
        err = n; \
        goto out; \
    } while (0)
/* So many bytes have to follow. */
#define NEED(k) \
    do { \
        if (len - at < (k)) FAIL(HUNK_TRUNCATED); \
    } while (0)

struct hand_answer hand_table(const uint8_t *b, size_t len, uint64_t budget, struct hand_row *rows,
                              size_t n)
{
    size_t at = 0;
    uint64_t total = 0;
    NEED(20);
    if (be(b) != 0x3F3) FAIL(HUNK_NOT_LOAD_FILE);
    if (be(b + 4)) FAIL(HUNK_RESIDENT);
    uint32_t t = be(b + 8);
    if (!t) FAIL(HUNK_TOO_MANY_HUNKS);
    if (t > 65536) FAIL(HUNK_TOO_MANY_HUNKS);
    if (be(b + 12)) FAIL(HUNK_FIRST_HUNK);
    if (be(b + 16) != t - 1) FAIL(HUNK_LAST_HUNK);
    if (t > n) FAIL(HUNK_NO_ROOM);
    at = 20;
    for (uint32_t i = 0; i < t; i++) {
        NEED(4);
        uint32_t w = be(b + at);
        at += 4;
        uint32_t x = 0;
        if (w >> 30 == 3) {
            NEED(4);
            x = be(b + at);
            at += 4;
        }
        rows[i].word = w;
        rows[i].extra = x;
        rows[i].bytes = w << 2;
        rows[i].memory = w >> 30;
        total += (w & 0x3fffffff) * 4ull;
        if (total > budget) FAIL(HUNK_BUDGET);
    }
    struct hand_answer a = {0, t, at, total};
    return a;
}

/* The whole load file at once, straight into the caller's memory. */
struct hand_answer hand_load(const uint8_t *b, size_t len, uint32_t base, uint8_t *memory,
                             size_t memory_len)
{
    size_t at = 0;
    NEED(20);
    uint32_t t = be(b + 8);
    if (t == 0 || t > 65536) FAIL(HUNK_TOO_MANY_HUNKS);
    struct hand_row *rows = malloc(t * sizeof *rows);
    uint32_t *bases = malloc(t * sizeof *bases);
    if (!rows || !bases) {
        free(rows);
        free(bases);
        FAIL(HUNK_OUT_OF_MEMORY);
    }
    struct hand_answer h = hand_table(b, len, ~0ull, rows, t);
    int err = h.err;
    size_t seg = 0;
    if (err) goto out;
    if (h.count > memory_len) STOP(HUNK_NO_ROOM);
    at = h.place;
    for (uint32_t i = 0; i < t; i++) {
        bases[i] = base;
        base += rows[i].bytes;
    }
    for (uint32_t i = 0; i < t; i++) {
        uint32_t size = rows[i].bytes;
        uint8_t *m = memory + seg;
        int content = 0;
        for (;;) {
            if (len - at < 4) STOP(HUNK_TRUNCATED);
            uint32_t w = be(b + at);
            at += 4;
            if (w >> 30 == 3) STOP(HUNK_BOTH_BITS);
            uint32_t k = w & 0x1fffffff, n;
            switch (k) {
            case 0x3E9:
            case 0x3EA:
                if (content) STOP(HUNK_SECOND_CONTENT);
                if (len - at < 4) STOP(HUNK_TRUNCATED);
                n = (be(b + at) & 0x3fffffff) * 4;
                at += 4;
                if (n > size) STOP(HUNK_CONTENT_TOO_LONG);
                if (len - at < n) STOP(HUNK_TRUNCATED);
                memcpy(m, b + at, n);
                memset(m + n, 0, size - n);
                at += n;
                content = 1;
                break;
            case 0x3EB:
                if (content) STOP(HUNK_SECOND_CONTENT);
                if (len - at < 4) STOP(HUNK_TRUNCATED);
                n = (be(b + at) & 0x3fffffff) * 4;
                at += 4;
                if (n > size) STOP(HUNK_CONTENT_TOO_LONG);
                memset(m, 0, size);
                content = 1;
                break;
            case 0x3EC:
                if (!content) STOP(HUNK_BEFORE_CONTENT);
                for (;;) {
                    if (len - at < 4) STOP(HUNK_TRUNCATED);
                    n = be(b + at);
                    at += 4;
                    if (!n) break;
                    if (!size) STOP(HUNK_NOTHING_TO_RELOCATE);
                    if (len - at < 4) STOP(HUNK_TRUNCATED);
                    uint32_t target = be(b + at);
                    at += 4;
                    if (target >= t) STOP(HUNK_BAD_TARGET);
                    if ((len - at) / 4 < n) STOP(HUNK_TRUNCATED);
                    uint32_t add = bases[target];
                    for (uint32_t j = 0; j < n; j++, at += 4) {
                        uint32_t o = be(b + at);
                        if (o > size - 4) STOP(HUNK_BAD_OFFSET);
                        put(m + o, be(m + o) + add);
                    }
                }
                break;
            case 0x3F0:
                for (;;) {
                    if (len - at < 4) STOP(HUNK_TRUNCATED);
                    n = be(b + at);
                    at += 4;
                    if (!n) break;
                    n = ((n & 0xffffff) + 1);
                    if ((len - at) / 4 < n) STOP(HUNK_TRUNCATED);
                    at += 4 * (size_t)n;
                }
                break;
            case 0x3E8:
            case 0x3F1:
                if (len - at < 4) STOP(HUNK_TRUNCATED);
                n = be(b + at);
                at += 4;
                if (k == 0x3E8 && n >> 24) STOP(HUNK_NAME_WORD);
                if ((len - at) / 4 < n) STOP(HUNK_TRUNCATED);
                at += 4 * (size_t)n;
                break;
            case 0x3F2:
                if (!content) STOP(HUNK_NO_CONTENT);
                goto next;
            default:
                if (k < 999 || k > 1022) {
                    if (!(w & 0x20000000)) STOP(HUNK_UNKNOWN_BLOCK);
                    if (len - at < 4) STOP(HUNK_TRUNCATED);
                    n = be(b + at);
                    at += 4;
                    if ((len - at) / 4 < n) STOP(HUNK_TRUNCATED);
                    at += 4 * (size_t)n;
                    break;
                }
                err = HUNK_NOT_IN_LOAD_FILE;
                goto out;
            }
        }
    next:
        seg += size;
    }
out:
    free(rows);
    free(bases);
    struct hand_answer a = {err, t, at, seg};
    return a;
}

/* A loader that takes pieces of any size: what the next longword is for. */
enum { BLOCK, NAMEN, LONGN, CSIZE, BSIZE, CONTENT, SKIP, GCOUNT, TARGET, OFFSET, SYM, DONE };
void hand_begin(struct hand_loader *l, struct hand_place *places, uint32_t hunks, size_t header,
                uint8_t *memory, size_t memory_len)
{
    memset(l, 0, sizeof *l);
    l->hunks = hunks;
    l->phase = BLOCK;
    l->fed = header;
    size_t s = 0;
    for (uint32_t i = 0; i < hunks; i++) {
        places[i].start = s;
        s += places[i].bytes;
    }
    memset(memory, 0, memory_len);
}

static inline int word(struct hand_loader *l, const struct hand_place *places, uint8_t *memory,
                       uint32_t w)
{
    const struct hand_place *h = places + l->hunk;
    switch (l->phase) {
    case BLOCK: {
        if (w >> 30 == 3) return HUNK_BOTH_BITS;
        uint32_t k = w & 0x1fffffff;
        switch (k) {
        case 0x3E9:
        case 0x3EA:
            if (l->has_content) return HUNK_SECOND_CONTENT;
            l->has_content = 1;
            l->phase = CSIZE;
            return 0;
        case 0x3EB:
            if (l->has_content) return HUNK_SECOND_CONTENT;
            l->has_content = 1;
            l->phase = BSIZE;
            return 0;
        case 0x3EC:
            if (!l->has_content) return HUNK_BEFORE_CONTENT;
            l->phase = GCOUNT;
            return 0;
        case 0x3F0: l->phase = SYM; return 0;
        case 0x3E8: l->phase = NAMEN; return 0;
        case 0x3F1: l->phase = LONGN; return 0;
        case 0x3F2:
            if (!l->has_content) return HUNK_NO_CONTENT;
            l->has_content = 0;
            l->hunk++;
            if (l->hunk == l->hunks) l->phase = DONE;
            return 0;
        default:
            if ((k < 999 || k > 1022) && (w & 0x20000000)) {
                l->phase = LONGN;
                return 0;
            }
            return HUNK_UNKNOWN_BLOCK;
        }
    }
    case NAMEN:
        if (w >> 24) return HUNK_NAME_WORD; /* fall through */
    case LONGN:
        l->owed = w;
        l->target = 0;
        l->phase = w ? SKIP : BLOCK;
        return 0;
    case CSIZE:
        w &= 0x3fffffff;
        if (w > h->bytes / 4) return HUNK_CONTENT_TOO_LONG;
        l->owed = w;
        l->at = h->start;
        l->phase = w ? CONTENT : BLOCK;
        return 0;
    case BSIZE:
        w &= 0x3fffffff;
        if (w > h->bytes / 4) return HUNK_CONTENT_TOO_LONG;
        l->phase = BLOCK;
        return 0;
    case CONTENT:
        put(memory + l->at, w);
        l->at += 4;
        if (!--l->owed) l->phase = BLOCK;
        return 0;
    case SKIP:
        if (!--l->owed) l->phase = l->target ? SYM : BLOCK;
        return 0;
    case GCOUNT:
        if (!w) {
            l->phase = BLOCK;
            return 0;
        }
        if (!h->bytes) return HUNK_NOTHING_TO_RELOCATE;
        l->owed = w;
        l->phase = TARGET;
        return 0;
    case TARGET:
        if (w >= l->hunks) return HUNK_BAD_TARGET;
        l->target = w;
        l->phase = OFFSET;
        return 0;
    case OFFSET:
        if (w > h->bytes - 4) return HUNK_BAD_OFFSET;
        {
            uint8_t *p = memory + h->start + w;
            put(p, be(p) + places[l->target].base);
        }
        if (!--l->owed) l->phase = GCOUNT;
        return 0;
    case SYM:
        if (!w) {
            l->phase = BLOCK;
            return 0;
        }
        l->owed = (w & 0xffffff) + 1;
        l->target = 1;
        l->phase = SKIP;
        return 0;
    }
    return 0;
}
int hand_feed(struct hand_loader *l, const struct hand_place *places, uint8_t *memory,
              const uint8_t *b, size_t len)
{
    if (l->err) return l->err;
    size_t i = 0;
    while (i < len && l->phase != DONE) {
        if (l->pending == 0 && len - i >= 4) {
            if (l->phase == CONTENT) {
                size_t n = (len - i) / 4;
                if (n > l->owed) n = l->owed;
                memcpy(memory + l->at, b + i, 4 * n);
                l->at += 4 * n;
                l->owed -= n;
                i += 4 * n;
                if (!l->owed) l->phase = BLOCK;
            } else if (l->phase == SKIP) {
                size_t n = (len - i) / 4;
                if (n > l->owed) n = l->owed;
                l->owed -= n;
                i += 4 * n;
                if (!l->owed) l->phase = l->target ? SYM : BLOCK;
            } else {
                if ((l->err = word(l, places, memory, be(b + i)))) {
                    l->fed += i;
                    return l->err;
                }
                i += 4;
            }
        } else {
            l->first[l->pending++] = b[i++];
            if (l->pending == 4) {
                l->pending = 0;
                if ((l->err = word(l, places, memory, be(l->first)))) {
                    l->fed += i - 4;
                    return l->err;
                }
            }
        }
    }
    l->fed += i;
    return 0;
}

/* One walk over a file of either kind, which finds what is wrong, and copies what is kept. */
struct found {
    struct hunk_finding *rows;
    size_t n, room;
};
static inline void find(struct found *f, uint64_t at, uint64_t u, uint64_t h, uint32_t o,
                        uint32_t k)
{
    if (f->n < f->room) {
        struct hunk_finding r = {at, u, h, o, k, 0};
        f->rows[f->n] = r;
    }
    f->n++;
}

static int relwidth(uint32_t k)
{
    switch (k) {
    case 0x3EC:
    case 0x3F7:
    case 0x3FD: return 4;
    case 0x3ED:
    case 0x3F8:
    case 0x3FE: return 2;
    case 0x3EE:
    case 0x3F9: return 1;
    }
    return 0;
}

static int extwidth(int t)
{
    switch (t) {
    case 129:
    case 130:
    case 133:
    case 136:
    case 137: return 4;
    case 131:
    case 134:
    case 138: return 2;
    case 132:
    case 135:
    case 139: return 1;
    }
    return -1;
}

/* The body of one hunk from *pat on, 0 or its fault. Where there is an `out`, kept blocks go there.
 */
static int hunk_walk(const uint8_t *b, size_t len, size_t *pat, int load, uint32_t declared,
                     uint32_t hunks, uint64_t u, uint64_t hn, struct found *f, uint8_t *out,
                     size_t out_len, size_t *po, int check)
{
    size_t at = *pat;
    int content = 0;
    uint64_t size = 0;
#define N4(k) \
    do { \
        if ((len - at) / 4 < (k)) { \
            *pat = at; \
            return HUNK_TRUNCATED; \
        } \
    } while (0)
    for (;;) {
        size_t start = at;
        N4(1);
        uint32_t w = be(b + at), n;
        at += 4;
        if (w >> 30 == 3) return HUNK_BOTH_BITS;
        uint32_t k = w & 0x1fffffff;
        int keep = 1, rw;
        switch (k) {
        case 0x3E9:
        case 0x3EA:
            if (content) return HUNK_SECOND_CONTENT;
            N4(1);
            n = be(b + at) & 0x3fffffff;
            at += 4;
            if (load && n > declared) return HUNK_CONTENT_TOO_LONG;
            N4(n);
            at += 4 * (size_t)n;
            size = load ? 4ull * declared : 4ull * n;
            content = 1;
            break;
        case 0x3EB:
            if (content) return HUNK_SECOND_CONTENT;
            N4(1);
            n = be(b + at) & 0x3fffffff;
            at += 4;
            if (load && n > declared) return HUNK_CONTENT_TOO_LONG;
            size = load ? 4ull * declared : 4ull * n;
            content = 1;
            break;
        case 0x3F0:
            keep = 0;
            for (;;) {
                N4(1);
                n = be(b + at);
                at += 4;
                if (!n) break;
                n = (n & 0xffffff) + 1;
                N4(n);
                at += 4 * (size_t)n;
            }
            break;
        case 0x3E8:
        case 0x3F1:
            keep = 0;
            N4(1);
            n = be(b + at);
            at += 4;
            if (k == 0x3E8 && n >> 24) return HUNK_NAME_WORD;
            N4(n);
            at += 4 * (size_t)n;
            break;
        case 0x3EF:
            if (load) return HUNK_NOT_IN_LOAD_FILE;
            if (!content) return HUNK_BEFORE_CONTENT;
            for (;;) {
                N4(1);
                n = be(b + at);
                at += 4;
                if (!n) break;
                int t = n >> 24;
                n &= 0xffffff;
                N4(n);
                at += 4 * (size_t)n;
                if (t <= 2) {
                    N4(1);
                    at += 4;
                    continue;
                }
                int wd = extwidth(t);
                if (wd < 0) return HUNK_EXT_KIND;
                if (t == 130 || t == 137) {
                    N4(1);
                    at += 4;
                }
                N4(1);
                n = be(b + at);
                at += 4;
                N4(n);
                if (check)
                    for (uint32_t j = 0; j < n; j++) {
                        size_t p = at + 4 * (size_t)j;
                        uint32_t o = be(b + p);
                        if (o + (uint64_t)wd > size) find(f, p, u, hn, o, 2);
                    }
                at += 4 * (size_t)n;
            }
            break;
        case 0x3F2:
            if (!content) return HUNK_NO_CONTENT;
            if (out) {
                if (*po + 4 > out_len) return HUNK_NO_ROOM;
                memcpy(out + *po, b + start, 4);
                *po += 4;
            }
            *pat = at;
            return 0;
        default:
            if ((rw = relwidth(k))) {
                if (load && k != 0x3EC) return HUNK_NOT_IN_LOAD_FILE;
                if (!content) return HUNK_BEFORE_CONTENT;
                for (;;) {
                    N4(1);
                    n = be(b + at);
                    at += 4;
                    if (!n) break;
                    if (load && !size) return HUNK_NOTHING_TO_RELOCATE;
                    N4(1);
                    uint32_t t = be(b + at);
                    at += 4;
                    if (load && t >= hunks) return HUNK_BAD_TARGET;
                    N4(n);
                    if (load) {
                        for (uint32_t j = 0; j < n; j++)
                            if (be(b + at + 4 * (size_t)j) > size - 4) return HUNK_BAD_OFFSET;
                    } else if (check)
                        for (uint32_t j = 0; j < n; j++) {
                            size_t p = at + 4 * (size_t)j;
                            uint32_t o = be(b + p);
                            if (t >= hunks) find(f, p, u, hn, o, 1);
                            if (o + (uint64_t)rw > size) find(f, p, u, hn, o, 2);
                        }
                    at += 4 * (size_t)n;
                }
                break;
            }
            if ((k < 999 || k > 1022) && (w & 0x20000000)) {
                keep = 0;
                N4(1);
                n = be(b + at);
                at += 4;
                N4(n);
                at += 4 * (size_t)n;
                break;
            }
            return HUNK_UNKNOWN_BLOCK;
        }
        if (out && keep) {
            if (*po + (at - start) > out_len) return HUNK_NO_ROOM;
            memcpy(out + *po, b + start, at - start);
            *po += at - start;
        }
    }
}

static struct hand_answer walk(const uint8_t *b, size_t len, struct found *f, uint8_t *out,
                               size_t out_len)
{
    size_t at = 0, o = 0;
    uint32_t t = 0;
    int e = 0;
    if (len >= 4 && be(b) == 0x3E7) {
        uint64_t u = 0;
        while (at < len && !e) {
            size_t start = at;
            uint32_t n;
            NEED(8);
            if (be(b + at) != 0x3E7) FAIL(HUNK_MISPLACED);
            n = be(b + at + 4);
            at += 8;
            if (n >> 24) FAIL(HUNK_NAME_WORD);
            NEED(4 * (size_t)n);
            at += 4 * (size_t)n;
            if (out) {
                if (o + (at - start) > out_len) FAIL(HUNK_NO_ROOM);
                memcpy(out + o, b + start, at - start);
                o += at - start;
            }
            uint32_t hunks = 0;
            if (f) {
                size_t a2 = at;
                while (a2 < len && !(len - a2 >= 4 && be(b + a2) == 0x3E7) &&
                       !(e = hunk_walk(b, len, &a2, 0, 0, 0, u, hunks, f, 0, 0, &o, 0)))
                    hunks++;
            }
            uint32_t h = 0;
            while (!e && at < len && !(len - at >= 4 && be(b + at) == 0x3E7)) {
                e = hunk_walk(b, len, &at, 0, 0, hunks, u, h++, f, out, out_len, &o, f != 0);
            }
            u++;
        }
    } else {
        NEED(20);
        t = be(b + 8);
        if (be(b) != 0x3F3 || be(b + 4) || !t || t > 65536 || be(b + 12) || be(b + 16) != t - 1)
            FAIL(HUNK_NOT_LOAD_FILE);
        size_t e0 = 20;
        at = 20;
        for (uint32_t i = 0; i < t; i++) {
            NEED(4);
            at += be(b + at) >> 30 == 3 ? 8 : 4;
        }
        if (at > len) FAIL(HUNK_TRUNCATED);
        if (out) {
            if (at > out_len) FAIL(HUNK_NO_ROOM);
            memcpy(out, b, at);
            o = at;
        }
        for (uint32_t i = 0; i < t && !e; i++) {
            uint32_t w = be(b + e0);
            e0 += w >> 30 == 3 ? 8 : 4;
            e = hunk_walk(b, len, &at, 1, w & 0x3fffffff, t, 0, i, f, out, out_len, &o, 0);
        }
    }
    struct hand_answer a = {e, t, at, out ? o : f ? f->n : 0};
    return a;
}
struct hand_answer hand_check(const uint8_t *b, size_t len, struct hunk_finding *rows, size_t n)
{
    struct found f = {rows, 0, n};
    struct hand_answer a = walk(b, len, &f, 0, 0);
    if (!a.err && f.n > n) a.err = HUNK_NO_ROOM;
    return a;
}
struct hand_answer hand_strip(const uint8_t *b, size_t len, uint8_t *out, size_t out_len)
{
    return walk(b, len, 0, out, out_len);
}
