/* Load files piece by piece: streams BASE FILE.. feeds each in pieces of several lengths, and compares
 * with hunk_load. Status 1 where an answer, or what it leaves in the caller's memory, is not what hunk.h says. */
#include "guarded.h"

#define BUDGET (UINT64_C(1) << 24)
#define MOST_HUNKS 65536

static struct guarded file_bytes = {1 << 20, NULL};
static struct guarded row_room = {MOST_HUNKS * sizeof(struct hunk_row), NULL};
static struct guarded place_room = {MOST_HUNKS * sizeof(struct hunk_place), NULL};
static struct guarded base_room = {MOST_HUNKS * 4, NULL};
static struct guarded wanted_room = {1 << 24, NULL};
static struct guarded memory_room = {(1 << 24) + 1, NULL};
static struct guarded piece_room = {PAGE, NULL};
static struct guarded loader_room = {sizeof(struct hunk_loader), NULL};

/* A file as it was read, its table, where its hunks lie, and what hunk_load makes of it. */
struct streamed {
    const char *name;
    const uint8_t *bytes;
    size_t len;
    struct hunk_answer table;
    const struct hunk_place *places;
    struct hunk_answer wanted;
    const uint8_t *image;
};

/* The table of the file, its places from the base on, and what hunk_load answers there. */
static int read_streamed(struct streamed *f, uint32_t base)
{
    struct hunk_row *rows = marked(&row_room, 0);
    f->table = hunk_table(f->bytes, f->len, BUDGET, rows, 0);
    if (f->table.number != HUNK_NO_ROOM)
        return 0;
    rows = marked(&row_room, f->table.hunk * sizeof *rows);
    hunk_table(f->bytes, f->len, BUDGET, rows, f->table.hunk);
    struct hunk_place *places = marked(&place_room, f->table.hunk * sizeof *places);
    uint32_t *bases = marked(&base_room, f->table.hunk * sizeof *bases);
    for (uint32_t h = 0; h < f->table.hunk; h++) {
        struct hunk_place place = {rows[h].word, rows[h].extra, base};
        places[h] = place;
        bases[h] = base;
        base += rows[h].bytes;
    }
    f->places = places;
    uint8_t *image = marked(&wanted_room, f->table.count);
    f->wanted = hunk_load(f->bytes, f->len, bases, f->table.hunk, image, f->table.count);
    f->image = image;
    return 1;
}

/* A piece up to a page that faults. */
static const uint8_t *piece_of(const uint8_t *bytes, size_t len)
{
    uint8_t *piece = marked(&piece_room, len);
    memcpy(piece, bytes, len);
    return piece;
}

/* Whether the fields that are reserved are 0. */
static int is_unused(const struct hunk_loader *l)
{
    return l->reserved[0] == 0 && l->reserved[1] == 0 && l->reserved[2] == 0 && l->reserved[3] == 0;
}

/* After a refusal: whatever comes, the same, and nothing is written. */
static void refused_for_good(const struct streamed *f, struct hunk_loader *loader, uint8_t *memory)
{
    struct hunk_loader before = *loader;
    const uint8_t *piece = piece_of(f->bytes, f->len < PAGE ? f->len : PAGE);
    memset(memory, MARK, f->table.count);
    for (size_t len = 0; len < 9 && len <= f->len; len += 4) {
        struct hunk_answer again = hunk_feed(loader, f->places, f->table.hunk, memory,
                                             f->table.count, piece, len);
        expect(same(again, f->wanted), f->name, "the same fault again");
    }
    expect(same(hunk_end(loader), f->wanted), f->name, "the same fault at the end");
    expect(same(hunk_want(loader), f->wanted), f->name, "the same fault where more is wanted");
    expect(memcmp(loader, &before, sizeof before) == 0, f->name, "the loader after a fault");
    expect(all_marked(memory, f->table.count), f->name, "the memory after a fault");
}

/* hunk_begin with what does not fit: the answer, and that a loader is left that has no file. */
static void begins_not(const struct streamed *f, size_t hunks, uint64_t header, size_t room,
                       struct hunk_answer wanted)
{
    static const struct hunk_answer strange = {HUNK_STRANGE, 0, 0, 0};
    struct hunk_loader *loader = marked(&loader_room, sizeof *loader);
    uint8_t *memory = marked(&memory_room, room);
    struct hunk_answer a = hunk_begin(loader, f->places, hunks, header, memory, room);
    expect(same(a, wanted), f->name, "the begin of what does not fit");
    expect(is_unused(loader), f->name, "what is reserved without a begin");
    a = hunk_feed(loader, f->places, hunks, memory, room, piece_of(f->bytes, 4), 4);
    expect(same(a, strange), f->name, "a piece without a begin");
    expect(same(hunk_end(loader), strange), f->name, "an end without a begin");
    expect(same(hunk_want(loader), strange), f->name, "what is wanted without a begin");
    expect(all_marked(memory, room), f->name, "the memory without a begin");
}

/* Memory that is too small or too large, a header of another length, and tables of none. */
static void fits_not(const struct streamed *f)
{
    static const struct hunk_answer strange = {HUNK_STRANGE, 0, 0, 0};
    size_t hunks = f->table.hunk, room = f->table.count;
    uint64_t header = f->table.place;
    struct hunk_answer no_room = {HUNK_NO_ROOM, f->table.hunk, header, room};
    if (room > 0) {
        begins_not(f, hunks, header, 0, no_room);
        begins_not(f, hunks, header, room - 1, no_room);
    }
    begins_not(f, hunks, header, room + 1, strange);
    begins_not(f, hunks, header - 4, room, strange);
    begins_not(f, hunks, header + 1, room, strange);
    begins_not(f, hunks - 1, header, room, strange);
    begins_not(f, 0, 20, 0, strange);
}

/* The numbers of no phase that a load file has: 15 to 18 would be those within EXT. */
static void has_no_phase(const struct streamed *f)
{
    static const struct hunk_answer strange = {HUNK_STRANGE, 0, 0, 0};
    static const uint32_t phases[] = {0, 15, 16, 17, 18, UINT32_MAX};
    size_t hunks = f->table.hunk, room = f->table.count;
    for (size_t i = 0; i < sizeof phases / sizeof phases[0]; i++) {
        struct hunk_loader *loader = marked(&loader_room, sizeof *loader);
        uint8_t *memory = marked(&memory_room, room);
        hunk_begin(loader, f->places, hunks, f->table.place, memory, room);
        loader->phase = phases[i];
        struct hunk_answer a =
            hunk_feed(loader, f->places, hunks, memory, room, piece_of(f->bytes, 4), 4);
        expect(same(a, strange), f->name, "a longword at no phase");
        expect(same(hunk_end(loader), strange), f->name, "the end at no phase");
        expect(same(hunk_want(loader), strange), f->name, "what is wanted at no phase");
    }
}

/* What is wanted after so many bytes: whole longwords up to the end of the file at most, and none
 * where it is whole. It is how many. */
static uint64_t wanted(const struct streamed *f, const struct hunk_loader *loader, uint64_t at,
                       uint32_t hunks)
{
    struct hunk_answer a = hunk_want(loader);
    expect(a.number == HUNK_OK && a.place == at && a.hunk == hunks, f->name, "where more is wanted");
    expect((at + a.count) % 4 == 0, f->name, "whole longwords are wanted");
    expect((a.count == 0) == (hunk_end(loader).number == HUNK_OK), f->name, "more is wanted");
    if (f->wanted.number == HUNK_OK)
        expect(at + a.count <= f->wanted.place, f->name, "no byte after the file is wanted");
    return a.count;
}

/* Just what is wanted is fed, as long as there is as much: all of the file, and no byte after it. */
static void fed_as_wanted(const struct streamed *f)
{
    struct hunk_loader *loader = marked(&loader_room, sizeof *loader);
    size_t room = f->table.count, at = f->table.place;
    uint64_t len; /* a damaged file may want more than a machine can address */
    uint8_t *memory = marked(&memory_room, room);
    struct hunk_answer a = hunk_begin(loader, f->places, f->table.hunk, f->table.place, memory, room);
    a.hunk = 0;
    while ((len = wanted(f, loader, at, a.hunk)) > 0 && len <= f->len - at) {
        a = hunk_feed(loader, f->places, f->table.hunk, memory, room, f->bytes + at, len);
        if (a.number != HUNK_OK) {
            expect(same(a, f->wanted), f->name, "the fault of what was wanted");
            return;
        }
        expect(a.count == len, f->name, "what was wanted is taken");
        at += len;
    }
    if (len == 0)
        expect(f->wanted.number == HUNK_OK && at == f->wanted.place, f->name, "all was wanted");
    else
        expect(f->wanted.number != HUNK_OK, f->name, "more is wanted than there is");
}

/* The whole of the bytes after the header, in pieces of so many: what is taken, and the end. */
static void streamed(const struct streamed *f, size_t most)
{
    struct hunk_loader *loader = marked(&loader_room, sizeof *loader);
    size_t room = f->table.count, at = f->table.place;
    uint8_t *memory = marked(&memory_room, room);
    struct hunk_answer begun = hunk_begin(loader, f->places, f->table.hunk, f->table.place, memory,
                                          room);
    struct hunk_answer all = {HUNK_OK, f->table.hunk, f->table.place, room};
    expect(same(begun, all), f->name, "the begin of a stream");
    expect(is_unused(loader), f->name, "what is reserved at the begin");
    struct hunk_answer nothing =
        hunk_feed(loader, f->places, f->table.hunk, memory, room, NULL, 0);
    struct hunk_answer header = {HUNK_OK, 0, f->table.place, 0};
    expect(same(nothing, header), f->name, "a piece of nothing");
    for (size_t i = 0; i < room; i++)
        expect(memory[i] == 0, f->name, "zero bytes at the begin");
    while (at < f->len) {
        size_t len = f->len - at < most ? f->len - at : most;
        struct hunk_answer a = hunk_feed(loader, f->places, f->table.hunk, memory, room,
                                         piece_of(f->bytes + at, len), len);
        expect(is_unused(loader), f->name, "what is reserved in a stream");
        if (a.number != HUNK_OK) {
            expect(same(a, f->wanted), f->name, "the fault of a stream");
            refused_for_good(f, loader, memory);
            return;
        }
        at += a.count;
        expect(a.place == at && a.hunk <= f->table.hunk, f->name, "how far a stream has come");
        wanted(f, loader, at, a.hunk);
        if (a.count < len)
            break;
    }
    struct hunk_answer end = hunk_end(loader);
    expect(same(end, f->wanted), f->name, "the end of a stream");
    if (end.number != HUNK_OK)
        return;
    expect(at == end.place, f->name, "the bytes of a stream");
    expect(memcmp(memory, f->image, room) == 0, f->name, "the memory of a stream");
    struct hunk_answer after = hunk_feed(loader, f->places, f->table.hunk, memory, room,
                                          piece_of(f->bytes, 4), 4);
    struct hunk_answer none = {HUNK_OK, end.hunk, end.place, 0};
    expect(same(after, none), f->name, "after the end of a stream");
}

int main(int argc, char **argv)
{
    static const size_t lengths[] = {1, 4, 13, 40, 121, 364};
    if (argc < 3 || !make_guarded(&file_bytes) || !make_guarded(&row_room) ||
        !make_guarded(&place_room) || !make_guarded(&base_room) || !make_guarded(&wanted_room) ||
        !make_guarded(&memory_room) || !make_guarded(&piece_room) || !make_guarded(&loader_room))
        return 3;
    int faults = 0, whole = 0, cut = 0;
    for (int i = 2; i < argc; i++) {
        struct streamed f = {argv[i], NULL, 0, {0, 0, 0, 0}, NULL, {0, 0, 0, 0}, NULL};
        f.bytes = read_file(&file_bytes, f.name, &f.len);
        if (!read_streamed(&f, (uint32_t)strtoul(argv[1], NULL, 16)))
            continue;
        whole += f.wanted.number == HUNK_OK;
        cut += f.wanted.number == HUNK_TRUNCATED;
        faults += f.wanted.number != HUNK_OK && f.wanted.number != HUNK_TRUNCATED;
        fits_not(&f);
        has_no_phase(&f);
        for (size_t l = 0; l < sizeof lengths / sizeof *lengths; l++)
            streamed(&f, lengths[l]);
        fed_as_wanted(&f);
    }
    expect(whole > 100 && cut > 100 && faults > 100, "files", "whole, cut and refused ones");
    return failures > 0;
}
