/* The calls of hunk.h that are measured, each on one file: as the library makes it, and as loaders in C do. */
#ifndef CALLS_H
#define CALLS_H

#include "hunk.h"
#include <stddef.h>
#include <stdint.h>

enum {
    TABLE,
    LOAD,
    LOAD_AT,
    FEED,
    CHECK,
    STRIP,
    PLAIN,
    FRONT,
    INPUT_PLACE,
    UNITS,
    BLOCKS,
    SYMBOLS,
    RELOCATIONS,
    ENTRIES,
    REFERENCES,
    PARTS,
    BUILD,
    WARNINGS,
    CALLS
};

/* Makes a call on the file that was taken. What the plain loader answers is put as the library would. */
typedef struct hunk_answer maker(void);

/* The calls of the library; of a loader as a user would write it (hand*.c), which changes memory where it refuses a
 * file, too; and of one that keeps the library's promise (careful*.c). NULL where a loader has no such call. */
extern maker *const library_calls[CALLS];
#ifndef PLAIN_CALLS
#define PLAIN_CALLS plain_calls
#define CAREFUL_CALLS careful_calls
#endif
extern maker *const PLAIN_CALLS[CALLS], *const CAREFUL_CALLS[CALLS];

/* The file, and room for all that a call writes. */
struct taken {
    uint8_t *file;
    uint64_t file_len;
    struct hunk_answer table; /* of a load file */
    struct hunk_row *rows;
    uint8_t *memory; /* hunks that lie apart need the most of it */
    uint64_t memory_len;
    uint32_t *bases;
    uint64_t apart_len; /* hunks that lie apart have so many bytes from the first to the last */
    struct hunk_place *places;
    uint64_t piece;
    uint8_t *text;
    uint64_t text_len;
    void *items; /* rows of any call but hunk_table */
    uint32_t *room;
    struct hunk_part *parts;
    uint64_t parts_len;
};

extern struct taken taken;

/* The address of the first hunk. */
#define BASE UINT32_C(0x21000)
#define MOST_ROWS 65536

/* The rows that a call has room for: as many as no file passes. */
static inline uint64_t most_findings(void) { return taken.file_len / 2; }
static inline uint64_t most_items(void) { return taken.file_len / 4; }

/* Reads the file, and makes room for all that a call writes; 0 where that fails. */
int take_file(const char *name);

/* Whether the file is a load file, or else one that hunk_check accepts. */
int is_load_file(void);
int is_accepted(void);

/* The number of the call of this name, or CALLS. A name such as feed/256 sets the bytes of a piece. */
int call_named(const char *name);

/* Whether the call is made on this file: only a load file has a table and memory. */
int takes_file(int call);

/* What a call has written after this answer, and how many bytes. */
void *written_by(int call, struct hunk_answer answer, uint64_t *len);

#endif
