/* See careful.h: the calls of a stream. */
#include "careful_loader.h"
#include "careful_walk.h"

/* ---- longwords: what takes one gives the number of its refusal, or 0 */

/* The numbers that a longword may change; those of the loader change where the whole piece is taken. */
struct state {
    uint64_t start;
    uint32_t hunk, hunks, ahead, has_content, phase, part, owed;
};

INLINED struct state state_of(const struct hunk_loader *loader)
{
    return (struct state){loader->start,       loader->hunk,  loader->hunks, loader->ahead,
                          loader->has_content, loader->phase, loader->part,  loader->owed};
}

INLINED void keep_state(struct hunk_loader *loader, const struct state *state)
{
    loader->start = state->start;
    loader->hunk = state->hunk;
    loader->hunks = state->hunks;
    loader->ahead = state->ahead;
    loader->has_content = state->has_content;
    loader->phase = state->phase;
    loader->part = state->part;
    loader->owed = state->owed;
}

INLINED uint32_t end_hunk(struct state *state, const struct hunk_place *places)
{
    if (!state->has_content)
        return HUNK_NO_CONTENT;
    state->start += 4 * (uint64_t)longs_of(places + state->hunk++);
    state->has_content = 0;
    state->phase = AT_FIRST_BLOCK;
    if (!state->ahead--) {
        state->ahead = state->hunks = 0;
        state->phase = AT_WHOLE;
    }
    return 0;
}

/* What comes after the word of a block, where it may stand in a load file; else 0. */
INLINED uint32_t phase_after(uint32_t word)
{
    uint32_t kind = word & KIND;
    switch (kind) {
    case CODE:
    case DATA:
        return AT_CONTENT_SIZE;
    case BSS:
        return AT_BSS_SIZE;
    case RELOC32:
        return AT_GROUP_COUNT;
    case SYMBOL:
        return AT_ENTRY_WORD;
    case NAME:
        return AT_NAME_COUNT;
    case DEBUG:
        return AT_LONG_COUNT;
    }
    int is_known = kind >= UNIT && kind <= ABSRELOC16 && kind != NO_KIND;
    return is_known || !(word & ADVISORY) ? 0 : AT_LONG_COUNT;
}

INLINED uint32_t take_block_word(struct state *state, const struct hunk_place *places, uint32_t word)
{
    if (word >> 30 == 3)
        return HUNK_BOTH_BITS;
    if ((word & KIND) == END)
        return end_hunk(state, places);
    uint32_t phase = phase_after(word);
    if (!phase)
        return refusal_of(word & KIND, 1);
    if ((phase == AT_CONTENT_SIZE || phase == AT_BSS_SIZE) && state->has_content)
        return HUNK_SECOND_CONTENT;
    if (phase == AT_GROUP_COUNT && !state->has_content)
        return HUNK_BEFORE_CONTENT;
    state->phase = phase;
    return 0;
}

INLINED void end_content(struct state *state)
{
    state->part = 0;
    state->has_content = 1;
    state->phase = AT_BLOCK_WORD;
}

/* This phase, where the word counts some longwords; else the other. */
INLINED uint32_t begin_counted(struct state *state, uint32_t word, uint32_t phase, uint32_t other)
{
    state->phase = word ? phase : other;
    state->owed = word ? word - 1 : 0;
    return 0;
}

INLINED uint32_t begin_content(struct state *state, uint32_t word, uint32_t longs)
{
    int has_bytes = state->phase == AT_CONTENT_SIZE;
    word &= SIZE;
    if (word > longs)
        return HUNK_CONTENT_TOO_LONG;
    if (!has_bytes || !word) {
        end_content(state);
        return 0;
    }
    state->part = word;
    return begin_counted(state, word, AT_CONTENT, 0);
}

/* One of many longwords was taken; after the last one comes this phase. */
INLINED uint32_t count_down(struct state *state, uint32_t phase)
{
    if (state->owed)
        state->owed--;
    else
        state->phase = phase;
    return 0;
}

INLINED uint8_t *next_of_content(const struct state *state, uint8_t *memory)
{
    return memory + state->start + 4 * (uint64_t)(state->part - state->owed - 1);
}

INLINED uint32_t take_content(struct state *state, uint8_t *memory, uint32_t word)
{
    put(next_of_content(state, memory), word);
    if (!state->owed)
        end_content(state);
    else
        state->owed--;
    return 0;
}

INLINED uint32_t take_offset(struct state *state, const struct hunk_place *places, uint8_t *memory, uint32_t word,
                             uint32_t longs)
{
    if ((uint64_t)word + 4 > 4 * (uint64_t)longs)
        return HUNK_BAD_OFFSET;
    uint8_t *to = memory + state->start + word;
    put(to, get(to) + places[state->part].base);
    if (!state->owed)
        state->part = 0;
    return count_down(state, AT_GROUP_COUNT);
}

INLINED uint32_t take(struct state *state, const struct hunk_place *places, uint8_t *memory, uint32_t word)
{
    uint32_t longs = longs_of(places + state->hunk);
    switch (state->phase) {
    case AT_FIRST_BLOCK:
    case AT_BLOCK_WORD:
        return take_block_word(state, places, word);
    case AT_NAME_COUNT:
        return word >> 24 ? HUNK_NAME_WORD : begin_counted(state, word, AT_PAYLOAD, AT_BLOCK_WORD);
    case AT_LONG_COUNT:
        return begin_counted(state, word, AT_PAYLOAD, AT_BLOCK_WORD);
    case AT_CONTENT_SIZE:
    case AT_BSS_SIZE:
        return begin_content(state, word, longs);
    case AT_CONTENT:
        return take_content(state, memory, word);
    case AT_PAYLOAD:
        return count_down(state, AT_BLOCK_WORD);
    case AT_GROUP_COUNT:
        return word && !longs ? HUNK_NOTHING_TO_RELOCATE : begin_counted(state, word, AT_TARGET, AT_BLOCK_WORD);
    case AT_TARGET:
        state->phase = AT_OFFSET;
        state->part = word;
        return word >= state->hunks ? HUNK_BAD_TARGET : 0;
    case AT_OFFSET:
        return take_offset(state, places, memory, word, longs);
    case AT_ENTRY_WORD:
        state->phase = word ? AT_SYMBOL : AT_BLOCK_WORD;
        state->owed = word & NAME_SIZE;
        return 0;
    case AT_SYMBOL:
        return count_down(state, AT_ENTRY_WORD);
    }
    return 0;
}

/* ---- many longwords at once */

/* Takes as many of these as belong to a content, a payload or a symbol, and gives how many. */
INLINED size_t take_run(struct state *state, uint8_t *memory, const uint8_t *bytes, size_t longs)
{
    if (longs > (uint64_t)state->owed + 1)
        longs = (size_t)state->owed + 1;
    if (state->phase == AT_CONTENT)
        memcpy(next_of_content(state, memory), bytes, 4 * longs);
    if (longs <= state->owed) {
        state->owed -= (uint32_t)longs;
        return longs;
    }
    state->owed = 0;
    if (state->phase == AT_CONTENT)
        end_content(state);
    else
        state->phase = state->phase == AT_SYMBOL ? AT_ENTRY_WORD : AT_BLOCK_WORD;
    return longs;
}

/* Takes as many offsets of a group but for its last, and gives how many: none where one of them is refused. */
INLINED size_t take_offsets(const struct hunk_place *places, struct state *state, uint8_t *memory, const uint8_t *bytes,
                            size_t longs)
{
    uint32_t count = longs < state->owed ? (uint32_t)longs : state->owed, add = places[state->part].base;
    uint8_t *hunk = memory + state->start;
    if ((uint64_t)largest(bytes, count) + 4 > 4 * (uint64_t)longs_of(places + state->hunk))
        return 0;
    for (uint32_t i = 0; i < count; i++) {
        uint8_t *to = hunk + get(bytes + 4 * (size_t)i);
        put(to, get(to) + add);
    }
    state->owed -= count;
    return count;
}

/* ---- a piece */

INLINED int is_in_run(uint32_t phase) { return phase == AT_CONTENT || phase == AT_PAYLOAD || phase == AT_SYMBOL; }

/* What a piece is fed with. */
struct memory {
    const struct hunk_place *places;
    uint64_t places_len;
    uint8_t *bytes;
    uint64_t len;
};

/* Takes a longword, and then tests a hunk that it opens. */
INLINED uint32_t take_tested(struct state *state, const struct memory *memory, uint32_t word)
{
    uint32_t hunk = state->hunk;
    uint32_t number = take(state, memory->places, memory->bytes, word);
    if (number || hunk == state->hunk)
        return number;
    if (state->phase == AT_WHOLE)
        return state->hunk == memory->places_len && state->start == memory->len ? 0 : HUNK_STRANGE;
    return lies_in(memory->places + state->hunk, state->start, memory->len) ? 0 : HUNK_STRANGE;
}

/* Takes whole longwords from this byte of the piece on, and moves it to the first that is not taken. */
INLINED uint32_t take_longs(struct state *state, const struct memory *memory, const uint8_t *bytes, size_t len,
                            size_t *at)
{
    while (len - *at >= 4 && state->phase != AT_WHOLE) {
        size_t longs = (len - *at) / 4, taken = 0;
        uint32_t number;
        if (is_in_run(state->phase))
            taken = take_run(state, memory->bytes, bytes + *at, longs);
        else if (state->phase == AT_OFFSET && state->owed)
            taken = take_offsets(memory->places, state, memory->bytes, bytes + *at, longs);
        *at += 4 * taken;
        if (taken)
            continue;
        if ((number = take_tested(state, memory, get(bytes + *at))))
            return number;
        *at += 4;
    }
    return 0;
}

static struct hunk_answer refuse_piece(struct hunk_loader *loader, size_t at, uint32_t number)
{
    if (number == HUNK_STRANGE)
        return strange();
    loader->place = add_fed(loader->fed, at) / 4 * 4;
    loader->refused = number;
    memset(loader->reserved, 0, sizeof loader->reserved);
    return answer(number, 0, loader->place, 0);
}

/* The longword that the first bytes of a piece complete. */
INLINED uint32_t completed(const struct hunk_loader *loader, const uint8_t *bytes)
{
    uint8_t word[7] = {loader->first, loader->second, loader->third};
    memcpy(word + loader->pending, bytes, 4 - loader->pending);
    return get(word);
}

/* Takes a piece that completes a longword, where the numbers fit. */
OUTLINED struct hunk_answer feed_longs(struct hunk_loader *loader, const struct memory *memory, const uint8_t *bytes,
                                       size_t len)
{
    struct state state = state_of(loader);
    size_t at = 0;
    uint32_t number;
    if (loader->pending) {
        at = 4 - loader->pending;
        if ((number = take_tested(&state, memory, completed(loader, bytes))))
            return refuse_piece(loader, 0, number);
    }
    if ((number = take_longs(&state, memory, bytes, len, &at)))
        return refuse_piece(loader, at, number);
    size_t more = state.phase == AT_WHOLE ? 0 : len - at;
    uint64_t fed = add_fed(loader->fed, at + more);
    if (state.phase == AT_WHOLE && fed < 20 + 16 * (uint64_t)state.hunk)
        return strange();
    keep_state(loader, &state);
    loader->fed = fed;
    loader->pending = (uint8_t)more;
    loader->first = more > 0 ? bytes[at] : 0;
    loader->second = more > 1 ? bytes[at + 1] : 0;
    loader->third = more > 2 ? bytes[at + 2] : 0;
    memset(loader->reserved, 0, sizeof loader->reserved);
    return done(loader, at + more);
}

/* Whether the piece is of whole longwords in the middle of a run, or the byte that ends one: these have a way of their
 * own. */
INLINED int is_within_run(const struct hunk_loader *loader, size_t len)
{
    if (!is_in_run(loader->phase) || loader->fed > UINT64_MAX - 1 - len)
        return 0;
    return loader->pending ? loader->pending == 3 && len == 1 && loader->owed : len % 4 == 0 && len / 4 <= loader->owed;
}

INLINED struct hunk_answer feed_run(struct hunk_loader *loader, uint8_t *memory, const uint8_t *bytes, size_t len)
{
    int is_content = loader->phase == AT_CONTENT;
    uint8_t *to = is_content ? memory + loader->start + 4 * (uint64_t)(loader->part - loader->owed - 1) : NULL;
    if (loader->pending) {
        if (is_content)
            put(to, completed(loader, bytes));
        loader->owed--;
    } else {
        if (is_content)
            memcpy(to, bytes, len);
        loader->owed -= (uint32_t)(len / 4);
    }
    loader->fed += len;
    loader->pending = loader->first = loader->second = loader->third = 0;
    memset(loader->reserved, 0, sizeof loader->reserved);
    return done(loader, len);
}

/* ---- the calls */

struct hunk_answer careful_feed(struct hunk_loader *loader, const struct hunk_place *places, uint64_t places_len,
                                uint8_t *memory, uint64_t memory_len, const uint8_t *bytes, uint64_t len)
{
    if (!is_clean(loader) || !is_counted(loader) || !may_stand(loader))
        return tell_again(loader);
    if (!fits(loader, places, places_len, memory_len))
        return strange();
    if (loader->phase == AT_WHOLE)
        len = 0;
    if (is_within_run(loader, len))
        return feed_run(loader, memory, bytes, len);
    if (loader->pending + len >= 4) {
        struct memory given = {places, places_len, memory, memory_len};
        return feed_longs(loader, &given, bytes, len);
    }
    uint8_t *pending = (uint8_t *)loader + offsetof(struct hunk_loader, first);
    for (size_t i = 0; i < len; i++)
        pending[loader->pending++] = bytes[i];
    loader->fed = add_fed(loader->fed, len);
    memset(loader->reserved, 0, sizeof loader->reserved);
    return done(loader, len);
}

struct hunk_answer careful_begin(struct hunk_loader *loader, const struct hunk_place *places, uint64_t places_len,
                                 uint64_t header, uint8_t *memory, uint64_t memory_len)
{
    uint64_t size = 4 * TABLE_AT, bytes = 0;
    memset(loader, 0, sizeof *loader);
    if (!places_len || places_len > MOST_HUNKS)
        return strange();
    for (size_t i = 0; i < places_len; i++) {
        size += 4 * longs_of_entry(places[i].word);
        bytes += 4 * (uint64_t)longs_of(places + i);
    }
    if (header != size || memory_len > bytes)
        return strange();
    if (memory_len < bytes)
        return answer(HUNK_NO_ROOM, (uint32_t)places_len, header, bytes);
    loader->fed = header;
    loader->hunks = (uint32_t)places_len;
    loader->ahead = loader->hunks - 1;
    loader->phase = AT_FIRST_BLOCK;
    memset(memory, 0, memory_len);
    return answer(HUNK_OK, loader->hunks, header, bytes);
}

struct hunk_answer careful_end(const struct hunk_loader *loader)
{
    if (!is_clean(loader) || !is_counted(loader) || !may_stand(loader))
        return tell_again(loader);
    if (loader->phase == AT_WHOLE)
        return done(loader, loader->start);
    return answer(HUNK_TRUNCATED, 0, loader->fed / 4 * 4, 0);
}
