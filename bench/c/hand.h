/* A plain loader of hunk files, as a user of the library would write one: what its calls are measured against. It tests what
 * the library tests, but does not keep memory as it was where it refuses a file. */
#ifndef HAND_H
#define HAND_H

#include "hunk.h"
#include <stddef.h>
#include <stdint.h>

struct hand_answer {
    int err;
    uint32_t hunks;
    size_t place, count;
};

struct hand_row {
    uint32_t word, extra, bytes, memory;
};

struct hand_place {
    uint32_t bytes, base;
    size_t start;
};

/* The tables of what stands in a file, in the order of hunk.h. */
enum hand_table {
    HAND_UNITS,
    HAND_BLOCKS,
    HAND_SYMBOLS,
    HAND_RELOCATIONS,
    HAND_ENTRIES,
    HAND_REFERENCES
};

struct hand_loader {
    int phase, err, pending, has_content;
    uint8_t first[4];
    uint32_t hunk, hunks, owed, target;
    size_t at, fed;
};

struct hand_answer hand_table(const uint8_t *b, size_t len, uint64_t budget, struct hand_row *rows,
                              size_t n);
struct hand_answer hand_load(const uint8_t *b, size_t len, uint32_t base, uint8_t *memory,
                             size_t memory_len);
struct hand_answer hand_check(const uint8_t *b, size_t len, struct hunk_finding *rows, size_t n);
struct hand_answer hand_items(enum hand_table table, const uint8_t *b, size_t len, void *rows,
                              size_t n);
struct hand_answer hand_parts(const uint8_t *b, size_t len, struct hunk_part *rows, size_t n);
/* Where the rows are refused, or there is too little room, its text stays as it was. */
struct hand_answer hand_build(const struct hunk_part *rows, size_t rows_len, const uint8_t *bytes,
                              size_t bytes_len, uint8_t *text, size_t text_len);
/* The room is that of hunk_warnings. */
struct hand_answer hand_warnings(const uint8_t *b, size_t len, uint32_t *room, size_t room_len,
                                 struct hunk_warning *rows, size_t n);
struct hand_answer hand_strip(const uint8_t *b, size_t len, uint8_t *out, size_t out_len);
void hand_begin(struct hand_loader *l, struct hand_place *places, uint32_t hunks, size_t header,
                uint8_t *memory, size_t memory_len);
int hand_feed(struct hand_loader *l, const struct hand_place *places, uint8_t *memory,
              const uint8_t *b, size_t len);

#endif
