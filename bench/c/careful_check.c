/* See careful.h: what is wrong with an object file, what stays of a file that is stripped, and the front of one. */
#include "careful.h"
#include "careful_passing.h"

/* ---- findings */

/* Where the walk over an accepted object file stands, and what it has found. */
struct finding {
    const uint8_t *bytes;
    size_t end, at;
    uint64_t unit, hunk, size;
    size_t first_hunk; /* of the unit */
    uint64_t hunks;    /* of the unit, where `is_counted` */
    int is_counted;
    struct hunk_finding *rows;
    uint64_t count;
};

/* Only a unit with relocations is looked at twice. */
OUTLINED uint64_t count_hunks(const struct finding *found)
{
    uint64_t hunks = 0;
    for (size_t at = found->first_hunk; at < found->end;) {
        uint32_t kind = long_at(found->bytes, at) & KIND;
        if (kind == UNIT)
            break;
        hunks += kind == END;
        at = after_block(found->bytes, at + 1, kind);
    }
    return hunks;
}

INLINED void find(struct finding *found, int writes, size_t at, uint32_t fault)
{
    if (writes)
        found->rows[found->count] =
            (struct hunk_finding){4 * at, found->unit, found->hunk, long_at(found->bytes, at), fault, 0};
    found->count++;
}

INLINED void check_groups(struct finding *found, int writes, uint32_t width)
{
    if (!found->is_counted)
        found->hunks = count_hunks(found);
    found->is_counted = 1;
    for (uint32_t count; (count = long_at(found->bytes, found->at++)); found->at += count) {
        int is_bad = long_at(found->bytes, found->at++) >= found->hunks;
        for (size_t i = found->at; i < found->at + count; i++) {
            if (is_bad)
                find(found, writes, i, HUNK_FINDING_BAD_TARGET);
            if (long_at(found->bytes, i) + (uint64_t)width > found->size)
                find(found, writes, i, HUNK_FINDING_OUTSIDE_HUNK);
        }
    }
}

INLINED void check_entries(struct finding *found, int writes)
{
    for (uint32_t word; (word = long_at(found->bytes, found->at++));) {
        uint32_t kind = word >> 24, count;
        found->at += word & NAME_SIZE;
        found->at += defines(kind) || is_common(kind);
        if (defines(kind))
            continue;
        count = long_at(found->bytes, found->at++);
        for (size_t i = found->at; i < found->at + count; i++)
            if (long_at(found->bytes, i) + (uint64_t)width_of_reference(kind) > found->size)
                find(found, writes, i, HUNK_FINDING_OUTSIDE_HUNK);
        found->at += count;
    }
}

INLINED void check_unit(struct finding *found)
{
    found->unit += found->at != 1;
    found->hunk = 0;
    found->first_hunk = found->at = after_counted(found->bytes, found->at);
    found->is_counted = 0;
}

INLINED void check_block(struct finding *found, int writes)
{
    uint32_t kind = long_at(found->bytes, found->at++) & KIND, width;
    if (kind == UNIT) {
        check_unit(found);
    } else if (kind == EXT) {
        check_entries(found, writes);
    } else if ((width = width_of(kind))) {
        check_groups(found, writes, width);
    } else {
        if (kind == CODE || kind == DATA || kind == BSS)
            found->size = 4 * (uint64_t)(long_at(found->bytes, found->at) & SIZE);
        found->hunk += kind == END;
        found->at = after_block(found->bytes, found->at, kind);
    }
}

/* How many findings there are, which are written where that is asked for. */
INLINED uint64_t check_units(const struct walk *walk, int writes, struct hunk_finding *rows)
{
    struct finding found = {.bytes = walk->bytes, .end = walk->at, .rows = rows};
    while (found.at < found.end)
        check_block(&found, writes);
    return found.count;
}

struct hunk_answer careful_check(const uint8_t *bytes, uint64_t len, struct hunk_finding *rows, uint64_t room)
{
    struct walk walk = walk_of(bytes, len);
    uint32_t number = test_file(&walk, NOTHING);
    if (number || walk.hunks)
        return answer(number, number ? 0 : walk.hunks, 4 * walk.at, 0);
    /* no longword has more than two */
    if (room >= 2 * walk.at)
        return answer(HUNK_OK, 0, 4 * walk.at, check_units(&walk, 1, rows));
    uint64_t count = check_units(&walk, 0, NULL);
    if (count > room)
        return answer(HUNK_NO_ROOM, 0, 4 * walk.at, count);
    check_units(&walk, 1, rows);
    return answer(HUNK_OK, 0, 4 * walk.at, count);
}

/* ---- strip */

/* How many bytes stay, which are copied where that is asked for. What stays is copied in runs. */
INLINED uint64_t strip(const struct walk *walk, int writes, uint8_t *text)
{
    const uint8_t *bytes = walk->bytes;
    uint64_t kept = 0;
    size_t run = 0;
    for (size_t at = first_block(walk), begins; at < walk->at;) {
        begins = at;
        uint32_t kind = long_at(bytes, at) & KIND;
        at = after_block(bytes, at + 1, kind);
        if (kind == CODE || kind == DATA || kind == BSS || kind == END || kind == EXT || kind == UNIT || width_of(kind))
            continue;
        if (writes && begins > run)
            memcpy(text + kept, bytes + 4 * run, 4 * (begins - run));
        kept += 4 * (begins - run);
        run = at;
    }
    if (writes)
        memcpy(text + kept, bytes + 4 * run, 4 * (walk->at - run));
    return kept + 4 * (walk->at - run);
}

struct hunk_answer careful_strip(const uint8_t *bytes, uint64_t len, uint8_t *text, uint64_t text_len)
{
    struct walk walk = walk_of(bytes, len);
    uint32_t number = test_file(&walk, NOTHING);
    if (number)
        return answer(number, 0, 4 * walk.at, 0);
    if (text_len < 4 * walk.at) {
        uint64_t kept = strip(&walk, 0, NULL);
        if (kept > text_len)
            return answer(HUNK_NO_ROOM, walk.hunks, 4 * walk.at, kept);
    }
    return answer(HUNK_OK, walk.hunks, 4 * walk.at, strip(&walk, 1, text));
}

/* ---- front */

/* The bytes that close a front: those of a BSS block of nothing and END for each hunk that is left, and of what its
 * open hunk lacks. */
static uint64_t bytes_to_close(const struct walk *walk)
{
    if (!walk->hunks && !walk->is_open)
        return 0;
    uint64_t after = walk->hunks ? walk->hunks - walk->hunk - 1 : 0;
    return 12 * after + (walk->has_content ? 4 : 12);
}

static void close_hunks(uint8_t *text, uint64_t bytes, int has_content)
{
    for (int is_first = 1; bytes; is_first = 0) {
        if (!is_first || !has_content) {
            put(text, BSS);
            put(text + 4, 0);
            text += 8;
            bytes -= 8;
        }
        put(text, END);
        text += 4;
        bytes -= 4;
    }
}

struct hunk_answer careful_front(const uint8_t *bytes, uint64_t len, uint8_t *text, uint64_t text_len)
{
    struct walk walk = walk_of(bytes, len);
    uint32_t number;
    if (begins_as_object(&walk)) {
        number = test_units(&walk, NOTHING);
        if (!number) {
            walk.block = walk.at;
            walk.is_open = 0;
        }
        if (!walk.block)
            return answer(HUNK_OK, 0, 0, 0);
    } else {
        if (test_header(&walk))
            return answer(HUNK_OK, 0, 0, 0);
        if (!test_hunks(&walk, NOTHING))
            walk.hunk--; /* its front ends before the last END */
    }
    uint64_t front = 4 * walk.block, more = bytes_to_close(&walk);
    if (front + more > text_len)
        return answer(HUNK_NO_ROOM, walk.hunks, front, front + more);
    memcpy(text, bytes, front);
    close_hunks(text + front, more, walk.has_content);
    return answer(HUNK_OK, walk.hunks, front, front + more);
}
