/* Loaders of any numbers: numbers hands two million of them in, most of them like those of a loader with the places and the memory,
 * and these between two pages that fault. What each call answers has to be what hunk.h says of these numbers, however the piece
 * is cut. Status 1 where it is not. */
#include "guarded.h"
#include "standing.h"

#define LOADERS 2000000
#define MOST_BYTES 256
#define MOST_PIECE 48

static struct guarded place_room = {4 * sizeof(struct hunk_place), NULL};
static struct guarded piece_room = {MOST_PIECE, NULL};
static struct guarded loader_room = {sizeof(struct hunk_loader), NULL};
static const struct hunk_answer strange = {HUNK_STRANGE, 0, 0, 0};

static uint64_t any(void)
{
    static uint64_t seed = 88172645463325252u;
    seed ^= seed << 13;
    seed ^= seed >> 7;
    seed ^= seed << 17;
    return seed;
}

/* Small numbers, those next to the largest, and any. */
static uint64_t number(void)
{
    switch (any() % 4) {
    case 0:
        return any() % 16;
    case 1:
        return any() % 256;
    case 2:
        return UINT64_MAX - any() % 64;
    default:
        return any();
    }
}

/* Places, memory that ends or begins at a page that faults, and a piece. */
struct given {
    struct hunk_place *places;
    size_t hunks;
    uint8_t *memory;
    size_t len;
    uint8_t *piece;
    size_t size;
};

static uint64_t bytes_of(const struct hunk_place *place)
{
    return 4 * (uint64_t)(place->word & UINT32_C(0x3FFFFFFF));
}

static uint64_t bytes_before(const struct given *g, size_t hunk)
{
    uint64_t sum = 0;
    for (size_t h = 0; h < hunk; h++)
        sum += bytes_of(&g->places[h]);
    return sum;
}

/* A longword that a body often has. */
static uint32_t longword(void)
{
    static const uint32_t kinds[] = {0x3F2, 0x3F2, 0x3F2, 0x3E9, 0x3EB, 0x3EC, 0x3F0, 0x3F1, 0x3E8};
    switch (any() % 4) {
    case 0:
        return kinds[any() % (sizeof kinds / sizeof *kinds)];
    case 1:
        return 0;
    case 2:
        return (uint32_t)(any() % 8);
    default:
        return (uint32_t)number();
    }
}

/* Places, their memory, or another number of bytes of it, and a piece of longwords from byte `from` of one on. */
static void put_given(struct given *g, uint8_t *page, size_t from)
{
    g->hunks = any() % 8 ? 1 + any() % 3 : any() % 5;
    g->places = marked(&place_room, g->hunks * sizeof *g->places);
    for (size_t h = 0; h < g->hunks; h++) {
        struct hunk_place place = {(uint32_t)(any() % 64 ? any() % 16 : number()), 0, (uint32_t)any()};
        g->places[h] = place;
    }
    uint64_t all = bytes_before(g, g->hunks);
    g->len = all <= MOST_BYTES && any() % 8 ? all : any() % (MOST_BYTES + 1);
    g->memory = page + (any() % 2 ? 0 : PAGE - g->len);
    for (size_t i = 0; i < g->len; i++)
        g->memory[i] = (uint8_t)any();
    g->size = any() % (MOST_PIECE + 1 - 4);
    g->piece = marked(&piece_room, g->size);
    uint32_t word = longword();
    for (size_t i = 0; i < g->size; i++, from++) {
        if (from == 4) {
            word = longword();
            from = 0;
        }
        g->piece[i] = (uint8_t)(word >> (24 - 8 * from));
    }
}

/* What is owed at the phase. */
static void put_owed(struct hunk_loader *l)
{
    if (l->phase == 7) {
        l->part = 1 + (uint32_t)(any() % 8);
        l->owed = (uint32_t)(any() % l->part);
    }
    if (l->phase == 11)
        l->part = (uint32_t)(any() % l->hunks);
    if (l->phase == 8 || l->phase == 10 || l->phase == 11 || l->phase == 13)
        l->owed = (uint32_t)(any() % 8);
}

/* Numbers like those of a loader with these places. */
static void put_standing(struct hunk_loader *l, const struct given *g, uint8_t pending)
{
    size_t hunk = any() % (g->hunks + 1);
    memset(l, 0, sizeof *l);
    l->start = bytes_before(g, hunk);
    l->hunk = (uint32_t)hunk;
    l->phase = WHOLE;
    if (hunk < g->hunks) {
        l->phase = 1 + (uint32_t)(any() % 13);
        l->hunks = (uint32_t)g->hunks;
        l->ahead = (uint32_t)(g->hunks - hunk - 1);
        l->has_content = l->phase >= 9 || (l->phase == 8 && any() % 2) || (l->phase >= 2 && l->phase <= 4);
        l->pending = pending;
        put_owed(l);
    }
    l->fed = any() % 16 ? least_fed(l) + 4 * (any() % 4) + l->pending : UINT64_MAX;
}

/* Some of the numbers are others. */
static void put_others(struct hunk_loader *l)
{
    uint32_t *words[] = {&l->refused_hunk, &l->hunk, &l->hunks, &l->ahead, &l->has_content,
                         &l->phase, &l->part, &l->owed};
    switch (any() % 16) {
    case 0:
        l->start = any() % 2 ? 4 * (any() % 32) : number();
        break;
    case 1:
        l->fed = any() % 2 ? l->fed - any() % 16 : number();
        break;
    case 2:
        l->place = number();
        break;
    case 3:
        l->pending = (uint8_t)(any() % 2 ? any() % 4 : any());
        break;
    case 4:
    case 5:
        l->refused = (uint32_t)(any() % 8 ? any() % 36 : number());
        l->place = any() % 4 ? 4 * number() : number();
        break;
    default:
        *words[any() % 8] = (uint32_t)(any() % 2 ? any() % 4 : number());
    }
}

/* What the end is to answer to these numbers. */
static struct hunk_answer end_of(const struct hunk_loader *l)
{
    struct hunk_answer refused = {l->refused, 0, l->place, 0};
    struct hunk_answer whole = {HUNK_OK, l->hunk, l->fed, l->start};
    struct hunk_answer cut = {HUNK_TRUNCATED, 0, l->fed / 4 * 4, 0};
    if (has_refused(l))
        return refused;
    if (!stands(l))
        return strange;
    return l->phase == WHOLE ? whole : cut;
}

/* The longwords that are still to come at least: those that are owed, what ends their block, a content
 * where there is none yet, the END of the hunk, and three of each hunk ahead. */
static uint64_t longs_to_come(const struct hunk_loader *l)
{
    uint64_t owed = l->owed, hunks = 3 * (uint64_t)l->ahead, end = l->has_content ? 1 : 3;
    switch (l->phase) {
    case 1:
    case 2:
        return end + hunks;
    case 3:
    case 4:
    case 9:
    case 12:
        return 1 + end + hunks;
    case 5:
    case 6:
        return 1 + 1 + hunks;
    case 7:
        return 1 + owed + 1 + hunks;
    case 8:
        return 1 + owed + end + hunks;
    case 10:
        return 1 + 1 + owed + 1 + end + hunks;
    case 11:
        return 1 + owed + 1 + end + hunks;
    case 13:
        return 1 + owed + 1 + end + hunks;
    default:
        return 0;
    }
}

static struct hunk_answer want_of(const struct hunk_loader *l)
{
    struct hunk_answer want = {HUNK_OK, l->hunk, l->fed, 4 * longs_to_come(l) - l->pending};
    return stands(l) ? want : end_of(l);
}

/* What is reserved is not read, and written as 0. */
static int same_numbers(struct hunk_loader a, struct hunk_loader b)
{
    uint8_t *first[] = {&a.first, &b.first}, *second[] = {&a.second, &b.second};
    uint8_t *third[] = {&a.third, &b.third};
    for (int i = 0; i < 2; i++) {
        const struct hunk_loader *l = i ? &b : &a;
        if (l->pending < 1)
            *first[i] = 0;
        if (l->pending < 2)
            *second[i] = 0;
        if (l->pending < 3)
            *third[i] = 0;
    }
    memset(a.reserved, 0, sizeof a.reserved);
    memset(b.reserved, 0, sizeof b.reserved);
    return memcmp(&a, &b, sizeof a) == 0;
}

static int is_unused(const struct hunk_loader *l)
{
    return l->reserved[0] == 0 && l->reserved[1] == 0 && l->reserved[2] == 0 && l->reserved[3] == 0;
}

static struct hunk_answer fed(struct hunk_loader *l, const struct given *g, size_t from, size_t len)
{
    return hunk_feed(l, g->places, g->hunks, g->memory, g->len, g->piece + from, len);
}

/* The piece in parts: bytes, a first one of three, or any. The last answer, with the count of all. */
static struct hunk_answer fed_in_parts(struct hunk_loader *l, const struct given *g)
{
    struct hunk_answer a = {HUNK_OK, l->hunk, l->fed, 0};
    uint64_t kind = any() % 3;
    size_t at = 0;
    while (at < g->size) {
        size_t part = kind == 0 ? 1 : kind == 1 && at == 0 ? 3 : 1 + any() % 9;
        part = part < g->size - at ? part : g->size - at;
        a = fed(l, g, at, part);
        if (a.number != HUNK_OK)
            return a;
        at += a.count;
        if (a.count < part)
            break;
    }
    a.count = at;
    return a;
}

/* The end and what is wanted: they look at the numbers alone, and write nothing. */
static void ends(struct hunk_loader *l)
{
    struct hunk_loader before = *l;
    expect(same(hunk_end(l), end_of(l)), "any numbers", "the end");
    expect(same(hunk_want(l), want_of(l)), "any numbers", "what is wanted");
    expect(memcmp(l, &before, sizeof before) == 0, "any numbers", "no number is changed");
}

/* Numbers that do not stand with these places and this memory: whatever the piece, the same answer, and nothing is written. */
static void does_not_stand(struct hunk_loader *l, const struct given *g, const uint8_t *memory)
{
    struct hunk_loader before = *l;
    struct hunk_answer wanted = has_refused(l) ? end_of(l) : strange;
    for (size_t len = 0; len <= g->size; len += 1 + any() % 7)
        expect(same(fed(l, g, 0, len), wanted), "any numbers", "a piece where no loader stands");
    expect(memcmp(l, &before, sizeof before) == 0, "any numbers", "numbers of no loader are kept");
    expect(memcmp(g->memory, memory, g->len) == 0, "any numbers", "the memory of no loader is kept");
}

/* Numbers that stand: a piece of nothing, and the piece, whole and in parts. What the whole is answered. */
static struct hunk_answer piece_taken(struct hunk_loader *l, const struct given *g, uint8_t *memory)
{
    static uint8_t after[MOST_BYTES];
    struct hunk_loader parts = *l, before = *l;
    struct hunk_answer nothing = {HUNK_OK, l->hunk, l->fed, 0};
    expect(same(fed(l, g, 0, 0), nothing), "any numbers", "a piece of nothing");
    expect(same_numbers(*l, before), "any numbers", "the numbers after nothing");
    struct hunk_answer a = fed(l, g, 0, g->size);
    memcpy(after, g->memory, g->len);
    memcpy(g->memory, memory, g->len);
    struct hunk_answer b = fed_in_parts(&parts, g);
    expect(same(a, b), "any numbers", "the answer to parts of a piece");
    if (a.number == HUNK_STRANGE) {
        expect(same(a, strange) && same_numbers(*l, before), "any numbers", "strange ones are kept");
    } else if (a.number == HUNK_OK) {
        uint64_t now = before.fed + a.count;
        expect(stands(l) && fits(l, g->places, g->hunks, g->len), "any numbers", "it stands then");
        expect(is_unused(l), "any numbers", "what is reserved");
        expect(a.place == (now < before.fed ? UINT64_MAX : now), "any numbers", "how many were fed");
        expect(a.place == l->fed && a.hunk == l->hunk, "any numbers", "where a piece ends");
        expect(a.count == g->size || l->phase == WHOLE, "any numbers", "all of it is taken");
        expect(same_numbers(*l, parts), "any numbers", "the numbers after parts of a piece");
        expect(memcmp(after, g->memory, g->len) == 0, "any numbers", "the memory after parts");
    } else {
        expect(has_refused(l) && same(end_of(l), a), "any numbers", "a fault stays");
        expect(is_unused(l), "any numbers", "what is reserved after a fault");
    }
    return a;
}

/* A loader of any numbers: how each call answers it. */
static uint32_t answered(uint8_t *page)
{
    static uint8_t memory[MOST_BYTES];
    struct given g;
    struct hunk_loader *l = marked(&loader_room, sizeof *l);
    uint8_t pending = (uint8_t)(any() % 2 ? 0 : any() % 4);
    put_given(&g, page, pending);
    put_standing(l, &g, pending);
    l->first = (uint8_t)(any() % 4 ? 0 : any());
    l->second = (uint8_t)(any() % 4 ? 0 : any());
    l->third = (uint8_t)(any() % 4 ? 0 : any());
    for (uint64_t others = any() % 4; others > 1; others--)
        put_others(l);
    for (size_t i = 0; i < 4; i++)
        l->reserved[i] = any() % 2 ? 0 : number();
    memcpy(memory, g.memory, g.len);
    ends(l);
    if (!stands(l) || !fits(l, g.places, g.hunks, g.len)) {
        does_not_stand(l, &g, memory);
        return has_refused(l) ? l->refused : HUNK_STRANGE;
    }
    uint32_t told = piece_taken(l, &g, memory).number;
    ends(l);
    return told;
}

int main(void)
{
    static uint64_t counts[HUNK_STRANGE + 1];
    uint8_t *at = mmap(NULL, 3 * PAGE, PROT_NONE, MAP_PRIVATE | MAP_ANONYMOUS, -1, 0);
    if (at == MAP_FAILED || mprotect(at + PAGE, PAGE, PROT_READ | PROT_WRITE) != 0 ||
        !make_guarded(&place_room) || !make_guarded(&piece_room) || !make_guarded(&loader_room))
        return 3;
    for (long i = 0; i < LOADERS && failures < 20; i++) {
        uint32_t told = answered(at + PAGE);
        expect(told <= HUNK_STRANGE, "any numbers", "a number that no call answers");
        counts[told <= HUNK_STRANGE ? told : 0]++;
    }
    /* All kinds have to be among them. */
    expect(counts[HUNK_OK] > LOADERS / 10, "any numbers", "some are taken");
    expect(counts[HUNK_STRANGE] > LOADERS / 10, "any numbers", "some are strange");
    expect(counts[HUNK_BAD_OFFSET] > 1000, "any numbers", "some refuse an offset");
    return failures > 0;
}
