/* The calls of hunk.h in C, with the same promise: they take no memory, and change the caller's only where they accept
 * the whole file. They are as quick as could be made: what the library's calls are measured against. */
#ifndef CAREFUL_H
#define CAREFUL_H

#include "hunk.h"

struct hunk_answer careful_table(const uint8_t *bytes, uint64_t len, uint64_t budget, struct hunk_row *rows,
                                 uint64_t room);
struct hunk_answer careful_load_packed(const uint8_t *bytes, uint64_t len, uint32_t base, uint8_t *memory,
                                       uint64_t memory_len);
struct hunk_answer careful_load_at(const uint8_t *bytes, uint64_t len, const uint32_t *bases, uint64_t bases_len,
                                   uint32_t start, uint8_t *memory, uint64_t memory_len);
struct hunk_answer careful_check(const uint8_t *bytes, uint64_t len, struct hunk_finding *rows, uint64_t room);
struct hunk_answer careful_strip(const uint8_t *bytes, uint64_t len, uint8_t *text, uint64_t text_len);
struct hunk_answer careful_front(const uint8_t *bytes, uint64_t len, uint8_t *text, uint64_t text_len);

struct hunk_answer careful_units(const uint8_t *bytes, uint64_t len, struct hunk_unit *rows, uint64_t room);
struct hunk_answer careful_blocks(const uint8_t *bytes, uint64_t len, struct hunk_block *rows, uint64_t room);
struct hunk_answer careful_symbols(const uint8_t *bytes, uint64_t len, struct hunk_symbol *rows, uint64_t room);
struct hunk_answer careful_relocations(const uint8_t *bytes, uint64_t len, struct hunk_relocation *rows, uint64_t room);
struct hunk_answer careful_entries(const uint8_t *bytes, uint64_t len, struct hunk_entry *rows, uint64_t room);
struct hunk_answer careful_references(const uint8_t *bytes, uint64_t len, struct hunk_reference *rows, uint64_t room);

/* These two answer as the library does where the plain spelling is one of an accepted file. */
struct hunk_answer careful_plain(const uint8_t *bytes, uint64_t len, uint8_t *text, uint64_t text_len);
uint64_t careful_input_place(const uint8_t *bytes, uint64_t len, uint64_t place);

/* Whatever numbers stand in a loader, these answer as the library does. */
struct hunk_answer careful_begin(struct hunk_loader *loader, const struct hunk_place *places, uint64_t places_len,
                                 uint64_t header, uint8_t *memory, uint64_t memory_len);
struct hunk_answer careful_feed(struct hunk_loader *loader, const struct hunk_place *places, uint64_t places_len,
                                uint8_t *memory, uint64_t memory_len, const uint8_t *bytes, uint64_t len);
struct hunk_answer careful_end(const struct hunk_loader *loader);

#endif
