/* Each call of hunk.h once more, with its types written out. This does not compile where a call has
 * another type there, as a length that is a size_t of 32 bits. It includes nothing else, so that a
 * compiler reads it for a machine of which there is no C library. */
#ifndef TYPES_H
#define TYPES_H

#include "hunk.h"

uint32_t hunk_abi(void);
struct hunk_answer hunk_table(const uint8_t *, uint64_t, uint64_t, struct hunk_row *, uint64_t);
struct hunk_answer hunk_load(const uint8_t *, uint64_t, const uint32_t *, uint64_t, uint8_t *,
                             uint64_t);
struct hunk_answer hunk_load_packed(const uint8_t *, uint64_t, uint32_t, uint8_t *, uint64_t);
struct hunk_answer hunk_load_at(const uint8_t *, uint64_t, const uint32_t *, uint64_t, uint32_t,
                                uint8_t *, uint64_t);
struct hunk_answer hunk_begin(struct hunk_loader *, const struct hunk_place *, uint64_t, uint64_t,
                              uint8_t *, uint64_t);
struct hunk_answer hunk_feed(struct hunk_loader *, const struct hunk_place *, uint64_t, uint8_t *,
                             uint64_t, const uint8_t *, uint64_t);
struct hunk_answer hunk_end(const struct hunk_loader *);
struct hunk_answer hunk_want(const struct hunk_loader *);
struct hunk_answer hunk_check(const uint8_t *, uint64_t, struct hunk_finding *, uint64_t);
struct hunk_answer hunk_units(const uint8_t *, uint64_t, struct hunk_unit *, uint64_t);
struct hunk_answer hunk_blocks(const uint8_t *, uint64_t, struct hunk_block *, uint64_t);
struct hunk_answer hunk_symbols(const uint8_t *, uint64_t, struct hunk_symbol *, uint64_t);
struct hunk_answer hunk_relocations(const uint8_t *, uint64_t, struct hunk_relocation *, uint64_t);
struct hunk_answer hunk_entries(const uint8_t *, uint64_t, struct hunk_entry *, uint64_t);
struct hunk_answer hunk_references(const uint8_t *, uint64_t, struct hunk_reference *, uint64_t);
struct hunk_answer hunk_parts(const uint8_t *, uint64_t, struct hunk_part *, uint64_t);
struct hunk_answer hunk_build(const struct hunk_part *, uint64_t, const uint8_t *, uint64_t,
                              uint8_t *, uint64_t);
struct hunk_answer hunk_warnings(const uint8_t *, uint64_t, uint32_t *, uint64_t,
                                 struct hunk_warning *, uint64_t);
struct hunk_answer hunk_strip(const uint8_t *, uint64_t, uint8_t *, uint64_t);
struct hunk_spelling hunk_spelling_of(const uint8_t *, uint64_t);
struct hunk_answer hunk_plain(const uint8_t *, uint64_t, uint8_t *, uint64_t);
uint64_t hunk_input_place(const uint8_t *, uint64_t, uint64_t);
struct hunk_answer hunk_front(const uint8_t *, uint64_t, uint8_t *, uint64_t);
struct hunk_answer hunk_reason(uint32_t, uint8_t *, uint64_t);
struct hunk_answer hunk_reason_text(uint32_t, uint8_t *, uint64_t);

#endif
