/* The file that rows spell: see hand.h. All rows are tested first, so the bytes of the file are
 * known. Then they are gone over twice, for the table of a load file and for what follows it. */
#include "hand.h"
#include "longwords.h"

#define MOST_TYPE 255
/* Numbers of longwords from which on a name, a content and any data are too long. */
#define NAME_LIMIT (UINT64_C(1) << 24)
#define CONTENT_LIMIT (UINT64_C(1) << 30)
#define DATA_LIMIT (UINT64_C(1) << 32)

/* The rows, and what is known where one of them stands. */
struct build {
    const struct hunk_part *rows;
    const uint8_t *bytes;
    uint64_t rows_len, bytes_len;
    /* the bytes at which the next row and the next size word begin, and what the hunk declares */
    uint64_t place, entry, declared;
    /* those of a load file, and the kind of the list whose items may come */
    uint32_t hunks, listed;
    int has_unit, is_open, has_content;
};

/* The number of a refusal, and its byte; HUNK_OK is none. */
struct fault {
    uint32_t number;
    uint64_t place;
};

static const struct fault none;

/* The size word says that the entry has attributes. */
static inline int has_both_bits(uint32_t word) { return word >> 30 == 3; }

static inline int is_content(uint32_t kind) { return kind >= CODE && kind <= BSS; }

static inline int relocates(uint32_t kind) { return width_of(kind) != 0; }

/* What the items of a block are; 0 where it is no list. */
static inline uint32_t items_of(uint32_t kind)
{
    if (kind == SYMBOL)
        return HUNK_PART_SYMBOL;
    if (kind == EXT)
        return HUNK_PART_ENTRY;
    return relocates(kind) ? HUNK_PART_GROUP : 0;
}

/* Whether a value follows the name of an entry of this type. */
static inline int has_value(uint32_t type) { return defines(type) || is_common(type); }

/* The longwords of a content, the last filled up. */
static inline uint64_t longs_of(const struct hunk_part *r)
{
    return r->content_bytes / 4 + (r->content_bytes % 4 != 0);
}

/* ---- The tests. Each moves `place` past the row that it accepts. */

static inline struct fault refused(const struct build *b, uint32_t number, uint64_t ahead)
{
    return (struct fault){number, b->place + ahead};
}

static inline int lies_within(const struct build *b, uint64_t at, uint64_t count)
{
    return count == 0 || (at <= b->bytes_len && count <= b->bytes_len - at);
}

static inline int is_there(const struct build *b, const struct hunk_part *r)
{
    return r->offset_count >> 62 == 0 && lies_within(b, r->content, r->content_bytes) &&
           lies_within(b, r->offsets, 4 * r->offset_count);
}

static struct fault test_hunk(struct build *b, const struct hunk_part *r)
{
    int has_attributes = has_both_bits(r->word);
    if (b->is_open || (r->value && !has_attributes) || r->content_bytes || r->offset_count)
        return (struct fault){HUNK_STRANGE, b->entry};
    b->entry += has_attributes ? 8 : 4;
    b->declared = r->word & SIZE;
    b->is_open = 1;
    return none;
}

static struct fault test_unit(struct build *b, const struct hunk_part *r)
{
    uint64_t longs = longs_of(r);
    if (b->is_open)
        return refused(b, HUNK_MISPLACED, 0);
    if (r->word || r->value || r->offset_count)
        return refused(b, HUNK_STRANGE, 0);
    if (longs >= NAME_LIMIT)
        return refused(b, HUNK_NAME_WORD, 4);
    b->place += 8 + 4 * longs;
    b->has_unit = 1;
    return none;
}

/* Why a block word is refused by its kind alone, in this kind of file. */
static uint32_t refuse_kind(uint32_t word, int is_load)
{
    uint32_t kind = word & KIND;
    if (kind == OVERLAY)
        return HUNK_OVERLAY;
    if (kind == BREAK)
        return HUNK_BREAK;
    if (kind == RELOC32SHORT || (is_load && kind == DREL32))
        return HUNK_SHORT_RELOC;
    if (kind == LIB || kind == INDEX)
        return HUNK_LIBRARY;
    if (kind == HEADER)
        return HUNK_MISPLACED;
    if (is_load && (kind == EXT || (kind != RELOC32 && relocates(kind))))
        return HUNK_NOT_IN_LOAD_FILE;
    if ((kind < UNIT || kind > ABSRELOC16 || kind == NO_KIND) && !(word & ADVISORY))
        return HUNK_UNKNOWN_BLOCK;
    return HUNK_OK;
}

/* Why a block word is refused where it stands. */
static uint32_t refuse_word(const struct build *b, uint32_t word)
{
    uint32_t kind = word & KIND;
    if (has_both_bits(word))
        return HUNK_BOTH_BITS;
    uint32_t number = refuse_kind(word, b->hunks != 0);
    if (number)
        return number;
    if (kind == UNIT && (b->hunks || b->is_open || word != UNIT))
        return HUNK_MISPLACED;
    if (is_content(kind) && b->has_content)
        return HUNK_SECOND_CONTENT;
    if ((kind == EXT || relocates(kind)) && !b->has_content)
        return HUNK_BEFORE_CONTENT;
    if (kind == END && !b->has_content)
        return HUNK_NO_CONTENT;
    return HUNK_OK;
}

/* A block that has longwords of its own, and is no content. */
static struct fault test_data(struct build *b, const struct hunk_part *r, uint32_t kind)
{
    uint64_t longs = longs_of(r);
    if (r->value)
        return refused(b, HUNK_STRANGE, 0);
    if (kind == NAME && longs >= NAME_LIMIT)
        return refused(b, HUNK_NAME_WORD, 4);
    if (longs >= DATA_LIMIT)
        return refused(b, HUNK_STRANGE, 0);
    b->place += 8 + 4 * longs;
    return none;
}

static struct fault test_content(struct build *b, const struct hunk_part *r, uint32_t kind)
{
    uint64_t longs = longs_of(r), size = kind == BSS ? r->value & SIZE : longs;
    if (kind == BSS ? longs != 0 : (r->value & SIZE) != 0)
        return refused(b, HUNK_STRANGE, 0);
    if (size >= CONTENT_LIMIT || (b->hunks && size > b->declared))
        return refused(b, HUNK_CONTENT_TOO_LONG, 4);
    b->place += 8 + 4 * longs;
    b->has_content = 1;
    return none;
}

static struct fault test_block(struct build *b, const struct hunk_part *r)
{
    uint32_t kind = r->word & KIND, number = refuse_word(b, r->word);
    if (number)
        return refused(b, number, 0);
    if (kind == UNIT || r->offset_count)
        return refused(b, HUNK_STRANGE, 0);
    b->is_open = kind != END;
    b->listed = items_of(kind) ? kind : 0;
    if (is_content(kind))
        return test_content(b, r, kind);
    if (b->is_open && !b->listed)
        return test_data(b, r, kind);
    if (r->value || r->content_bytes)
        return refused(b, HUNK_STRANGE, 0);
    b->has_content = b->has_content && b->is_open;
    b->place += 4;
    return none;
}

/* The offsets of a group in a load file. */
static struct fault test_offsets(const struct build *b, const struct hunk_part *r)
{
    for (uint64_t i = 0; i < r->offset_count; i++)
        if ((uint64_t)get(b->bytes + r->offsets + 4 * i) + 4 > 4 * b->declared)
            return refused(b, HUNK_BAD_OFFSET, 8 + 4 * i);
    return none;
}

static struct fault test_group(struct build *b, const struct hunk_part *r)
{
    if (!relocates(b->listed) || r->value || r->content_bytes || !r->offset_count ||
        r->offset_count >= DATA_LIMIT)
        return refused(b, HUNK_STRANGE, 0);
    if (b->hunks && !b->declared)
        return refused(b, HUNK_NOTHING_TO_RELOCATE, 0);
    if (b->hunks && r->word >= b->hunks)
        return refused(b, HUNK_BAD_TARGET, 4);
    struct fault f = b->hunks ? test_offsets(b, r) : none;
    b->place += f.number ? 0 : 8 + 4 * r->offset_count;
    return f;
}

static struct fault test_symbol(struct build *b, const struct hunk_part *r)
{
    uint64_t longs = longs_of(r);
    if (b->listed != SYMBOL || r->offset_count || r->word > MOST_TYPE || (!r->word && !longs))
        return refused(b, HUNK_STRANGE, 0);
    if (longs >= NAME_LIMIT)
        return refused(b, HUNK_NAME_WORD, 0);
    b->place += 8 + 4 * longs;
    return none;
}

static struct fault test_entry(struct build *b, const struct hunk_part *r)
{
    uint64_t longs = longs_of(r);
    int values = has_value(r->word), is_reference = refers(r->word);
    uint64_t most_offsets = is_reference ? DATA_LIMIT - 1 : 0;
    if (b->listed != EXT)
        return refused(b, HUNK_STRANGE, 0);
    if (!values && !is_reference)
        return refused(b, HUNK_EXT_KIND, 0);
    if ((!values && r->value) || r->offset_count > most_offsets || (!r->word && !longs))
        return refused(b, HUNK_STRANGE, 0);
    if (longs >= NAME_LIMIT)
        return refused(b, HUNK_NAME_WORD, 0);
    b->place += 4 + 4 * longs + (values ? 4 : 0) + (is_reference ? 4 + 4 * r->offset_count : 0);
    return none;
}

static struct fault test_row(struct build *b, const struct hunk_part *r)
{
    if (b->hunks && r->what == HUNK_PART_HUNK)
        return test_hunk(b, r);
    if (b->hunks ? !b->is_open : !b->has_unit && r->what != HUNK_PART_UNIT)
        return refused(b, HUNK_STRANGE, 0);
    /* The zero that ends a list stands before the row. */
    if (b->listed && (r->what == HUNK_PART_UNIT || r->what == HUNK_PART_BLOCK)) {
        b->place += 4;
        b->listed = 0;
    }
    if (!is_there(b, r))
        return refused(b, HUNK_STRANGE, 0);
    switch (r->what) {
    case HUNK_PART_UNIT: return test_unit(b, r);
    case HUNK_PART_BLOCK: return test_block(b, r);
    case HUNK_PART_GROUP: return test_group(b, r);
    case HUNK_PART_SYMBOL: return test_symbol(b, r);
    case HUNK_PART_ENTRY: return test_entry(b, r);
    default: return refused(b, HUNK_STRANGE, 0);
    }
}

/* The hunks of a load file, and where its header ends. */
static struct hand_answer count_hunks(struct build *b)
{
    struct hand_answer a = {0, 0, 0, 0};
    if (!b->rows_len || b->rows->what != HUNK_PART_HUNK)
        return a;
    b->place = b->entry = 20;
    for (uint64_t i = 0; i < b->rows_len; i++) {
        if (b->rows[i].what != HUNK_PART_HUNK)
            continue;
        if (b->hunks == MOST_HUNKS)
            return (struct hand_answer){HUNK_TOO_MANY_HUNKS, 0, 8, i};
        b->hunks++;
        b->place += has_both_bits(b->rows[i].word) ? 8 : 4;
    }
    return a;
}

static struct hand_answer test_rows(struct build *b)
{
    for (uint64_t i = 0; i < b->rows_len; i++) {
        struct fault f = test_row(b, b->rows + i);
        if (f.number)
            return (struct hand_answer){f.number, 0, f.place, i};
    }
    b->place += b->listed ? 4 : 0;
    if (b->is_open || (!b->hunks && !b->has_unit))
        return (struct hand_answer){HUNK_TRUNCATED, 0, b->place, b->rows_len};
    return (struct hand_answer){0, b->hunks, b->place, b->place};
}

/* ---- The writer of rows that were accepted. Each answers where the next longword goes. */

static inline uint8_t *add(uint8_t *p, uint32_t word)
{
    put(p, word);
    return p + 4;
}

/* So many bytes, filled up with zeros to a whole longword. */
static inline uint8_t *copy(uint8_t *p, const uint8_t *from, uint64_t count)
{
    if (count)
        memcpy(p, from, count);
    for (; count % 4; count++)
        p[count] = 0;
    return p + count;
}

static inline uint8_t *add_content(const struct build *b, const struct hunk_part *r, uint8_t *p)
{
    return copy(p, b->bytes + r->content, r->content_bytes);
}

static inline uint8_t *add_offsets(const struct build *b, const struct hunk_part *r, uint8_t *p)
{
    return copy(p, b->bytes + r->offsets, 4 * r->offset_count);
}

static uint8_t *add_header(const struct build *b, uint8_t *p)
{
    const uint32_t first[] = {HEADER, 0, b->hunks, 0, b->hunks - 1};
    for (int i = 0; i < 5; i++)
        p = add(p, first[i]);
    for (uint64_t i = 0; i < b->rows_len; i++) {
        const struct hunk_part *r = b->rows + i;
        if (r->what != HUNK_PART_HUNK)
            continue;
        p = add(p, r->word);
        if (has_both_bits(r->word))
            p = add(p, r->value);
    }
    return p;
}

static inline uint8_t *add_block(const struct build *b, const struct hunk_part *r, uint8_t *p)
{
    uint32_t kind = r->word & KIND;
    p = add(p, r->word);
    if (kind == END || items_of(kind))
        return p;
    return add_content(b, r, add(p, r->value + (uint32_t)longs_of(r)));
}

static inline uint8_t *add_item(const struct build *b, const struct hunk_part *r, uint8_t *p)
{
    p = add_content(b, r, add(p, r->word << 24 | (uint32_t)longs_of(r)));
    if (r->what == HUNK_PART_SYMBOL || has_value(r->word))
        p = add(p, r->value);
    if (r->what == HUNK_PART_ENTRY && refers(r->word))
        p = add_offsets(b, r, add(p, (uint32_t)r->offset_count));
    return p;
}

static uint8_t *add_row(const struct build *b, const struct hunk_part *r, uint8_t *p)
{
    switch (r->what) {
    case HUNK_PART_HUNK: return p;
    case HUNK_PART_UNIT: return add_content(b, r, add(add(p, UNIT), (uint32_t)longs_of(r)));
    case HUNK_PART_BLOCK: return add_block(b, r, p);
    case HUNK_PART_GROUP: return add_offsets(b, r, add(add(p, (uint32_t)r->offset_count), r->word));
    default: return add_item(b, r, p);
    }
}

static void add_rows(const struct build *b, uint8_t *p)
{
    int listed = 0;
    if (b->hunks)
        p = add_header(b, p);
    for (uint64_t i = 0; i < b->rows_len; i++) {
        const struct hunk_part *r = b->rows + i;
        if (listed && r->what <= HUNK_PART_BLOCK) {
            p = add(p, 0);
            listed = 0;
        }
        p = add_row(b, r, p);
        if (r->what == HUNK_PART_BLOCK)
            listed = items_of(r->word & KIND) != 0;
    }
}

struct hand_answer hand_build(const struct hunk_part *rows, size_t rows_len, const uint8_t *bytes,
                              size_t bytes_len, uint8_t *text, size_t text_len)
{
    struct build b = {.rows = rows, .rows_len = rows_len, .bytes = bytes, .bytes_len = bytes_len};
    struct hand_answer a = count_hunks(&b);
    if (!a.err)
        a = test_rows(&b);
    if (!a.err && a.count > text_len)
        a.err = HUNK_NO_ROOM;
    else if (!a.err)
        add_rows(&b, text);
    return a;
}
