/* See careful.h: the plain spelling of an input, and where its bytes stand in the input. One walk over its blocks does
 * either. */
#include "careful.h"
#include "careful_walk.h"

/* What becomes of the plain spelling: its bytes are counted, written too, or one of them is looked for. */
enum use { COUNTED, WRITTEN, SOUGHT };

struct spelling {
    const uint8_t *bytes;
    uint64_t len;
    uint64_t from;  /* the byte of the input from which on nothing is given yet */
    uint64_t given; /* the bytes of the plain spelling so far */
    uint8_t *text;
    uint64_t sought, place;
};

/* Whether the byte that is sought is among so many that come next. */
INLINED int is_next(const struct spelling *spelling, enum use use, uint64_t count)
{
    return use == SOUGHT && spelling->sought >= spelling->given && spelling->sought - spelling->given < count;
}

/* Gives the bytes up to this one of the input, as they are. */
INLINED void give_to(struct spelling *spelling, enum use use, uint64_t to)
{
    uint64_t count = to - spelling->from;
    if (use == WRITTEN)
        memcpy(spelling->text + spelling->given, spelling->bytes + spelling->from, count);
    if (is_next(spelling, use, count))
        spelling->place = spelling->from + spelling->sought - spelling->given;
    spelling->given += count;
    spelling->from = to;
}

/* Gives a longword, which stands in place of the one at byte `from` of the input, or is put in before it. */
INLINED void give_long(struct spelling *spelling, enum use use, uint32_t word, int is_there)
{
    if (use == WRITTEN)
        put(spelling->text + spelling->given, word);
    if (is_next(spelling, use, 4))
        spelling->place = spelling->from + (is_there ? spelling->sought - spelling->given : 0);
    spelling->given += 4;
}

/* Gives so many numbers of 16 bits, each as one of 32. */
INLINED void give_halves(struct spelling *spelling, enum use use, uint64_t count)
{
    const uint8_t *halves = spelling->bytes + spelling->from;
    uint8_t *to = spelling->text + spelling->given;
    for (uint64_t i = 0; use == WRITTEN && i < count; i++) {
        uint16_t half;
        memcpy(&half, halves + 2 * i, 2);
        uint32_t wide = (uint32_t)half << 16;
        memcpy(to + 4 * i, &wide, 4);
    }
    if (is_next(spelling, use, 4 * count)) {
        uint64_t at = spelling->sought - spelling->given;
        spelling->place = spelling->from + at / 4 * 2 + (at % 4 == 3);
    }
    spelling->given += 4 * count;
    spelling->from += 2 * count;
}

INLINED uint64_t halves_left(const struct spelling *spelling) { return (spelling->len - spelling->from) / 2; }

INLINED uint32_t next_half(const struct spelling *spelling)
{
    return (uint32_t)spelling->bytes[spelling->from] << 8 | spelling->bytes[spelling->from + 1];
}

/* Gives the numbers of a short block, and answers whether all of it is there. */
INLINED int give_short_block(struct spelling *spelling, enum use use)
{
    for (uint64_t begun = spelling->from;;) {
        if (!halves_left(spelling))
            return 0;
        uint64_t count = next_half(spelling), here;
        give_halves(spelling, use, 1);
        if (count) {
            here = count + 1 < halves_left(spelling) ? count + 1 : halves_left(spelling);
            give_halves(spelling, use, here);
            if (here <= count)
                return 0;
            continue;
        }
        if ((spelling->from - begun) % 4 == 0)
            return 1;
        if (!halves_left(spelling))
            return 0;
        if (next_half(spelling)) {
            give_long(spelling, use, RELOC32SHORT, 0); /* which no reader takes */
            return 0;
        }
        spelling->from += 2;
        return 1;
    }
}

INLINED int is_content(uint32_t kind) { return kind == CODE || kind == DATA || kind == BSS; }

INLINED int is_short(uint32_t kind, int is_load) { return kind == RELOC32SHORT || (is_load && kind == DREL32); }

/* The word of a short block, and its numbers. */
INLINED int widen_block(struct spelling *spelling, enum use use, struct walk *walk, uint32_t word)
{
    give_to(spelling, use, 4 * walk->block);
    give_long(spelling, use, (word & ~KIND) | RELOC32, 1);
    spelling->from += 4;
    int is_whole = give_short_block(spelling, use);
    walk->at = spelling->from / 4;
    walk->has_content = 1;
    return is_whole;
}

/* A block of a load file: whether another one may follow. */
INLINED int spell_block(struct spelling *spelling, enum use use, struct walk *walk)
{
    uint32_t word;
    walk->block = walk->at;
    if (next(walk, &word) || word >> 30 == 3)
        return 0;
    uint32_t kind = word & KIND;
    if (is_short(kind, 1))
        return widen_block(spelling, use, walk, word);
    if (is_content(kind) && walk->has_content && walk->hunk + 1 < walk->hunks) {
        give_to(spelling, use, 4 * walk->block);
        give_long(spelling, use, END, 0);
        walk->has_content = 0;
        walk->hunk++;
    }
    if (kind != END)
        return !test_block(walk, NOTHING, 0, 0, word);
    if (!walk->has_content)
        return 0;
    walk->has_content = 0;
    return ++walk->hunk < walk->hunks;
}

INLINED void spell_hunks(struct spelling *spelling, enum use use, struct walk *walk)
{
    while (spell_block(spelling, use, walk))
        ;
    int is_at_end = 4 * walk->at == spelling->len && walk->block == walk->at;
    give_to(spelling, use, spelling->len);
    if (is_at_end && walk->has_content && walk->hunk + 1 == walk->hunks)
        give_long(spelling, use, END, 0);
}

/* The same of an object file, which leaves out no END. */
INLINED int spell_object_block(struct spelling *spelling, enum use use, struct walk *walk)
{
    uint32_t word;
    walk->block = walk->at;
    if (next(walk, &word) || word >> 30 == 3)
        return 0;
    uint32_t kind = word & KIND;
    if (is_short(kind, 0))
        return widen_block(spelling, use, walk, word);
    if (kind == END || word == UNIT)
        walk->has_content = 0;
    if (word == UNIT)
        return !test_counted(walk, 1);
    return kind == END || !test_block(walk, NOTHING, 0, 0, word);
}

/* Goes over the whole plain spelling. */
INLINED void spell(struct spelling *spelling, enum use use)
{
    struct walk walk = walk_of(spelling->bytes, spelling->len);
    if (begins_as_object(&walk))
        while (spell_object_block(spelling, use, &walk))
            ;
    else if (!test_header(&walk)) {
        spell_hunks(spelling, use, &walk);
        return;
    }
    give_to(spelling, use, spelling->len);
}

struct hunk_answer careful_plain(const uint8_t *bytes, uint64_t len, uint8_t *text, uint64_t text_len)
{
    if (text_len / 2 < len) {
        struct spelling counted = {.bytes = bytes, .len = len};
        spell(&counted, COUNTED);
        if (counted.given > text_len)
            return answer(HUNK_NO_ROOM, 0, len, counted.given);
    }
    struct spelling spelling = {.bytes = bytes, .len = len, .text = text};
    spell(&spelling, WRITTEN);
    return answer(HUNK_OK, 0, len, spelling.given);
}

uint64_t careful_input_place(const uint8_t *bytes, uint64_t len, uint64_t place)
{
    struct spelling spelling = {.bytes = bytes, .len = len, .sought = place, .place = len};
    spell(&spelling, SOUGHT);
    return spelling.place;
}
