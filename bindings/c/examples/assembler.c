/* Writes the object file that an assembler makes of a routine, from nothing: assembler OUT
 *
 *         xdef    _twice          ; twice(f): calls f two times
 * _twice: jsr     _f
 *         jmp     _f */
#include "hunk.h"
#include <inttypes.h>
#include <stdio.h>

/* The code, and behind it the names, and the offsets of the longwords that refer to _f. */
static const uint8_t bytes[] = {0x4E, 0xB9, 0,   0,   0,   0,   0x4E, 0xF9, 0, 0, 0, 0, '_', 't',
                                'w',  'i',  'c', 'e', '_', 'f', 0,    0,    0, 2, 0, 0, 0,   8};
enum { CODE = 0, CODE_BYTES = 12, TWICE = 12, F = 18, OFFSETS = 20 };

static const struct hunk_part parts[] = {
    {.what = HUNK_PART_UNIT, .content = TWICE + 1, .content_bytes = 5},
    {.what = HUNK_PART_BLOCK, .word = 0x3E9, .content = CODE, .content_bytes = CODE_BYTES},
    {.what = HUNK_PART_BLOCK, .word = 0x3EF},
    {.what = HUNK_PART_ENTRY, .word = 1, .content = TWICE, .content_bytes = 6},
    {.what = HUNK_PART_ENTRY, .word = 129, .content = F, .content_bytes = 2,
     .offsets = OFFSETS, .offset_count = 2},
    {.what = HUNK_PART_BLOCK, .word = 0x3F2},
};

enum { PARTS = sizeof parts / sizeof *parts };

int main(int argc, char **argv)
{
    uint8_t text[20 + 16 * PARTS + sizeof bytes]; /* always enough */
    struct hunk_answer a = hunk_build(parts, PARTS, bytes, sizeof bytes, text, sizeof text);
    if (a.number != HUNK_OK) {
        fprintf(stderr, "assembler: part %" PRIu64 ": reason %" PRIu32 "\n", a.count, a.number);
        return 1;
    }
    FILE *out = argc == 2 ? fopen(argv[1], "wb") : NULL;
    if (out == NULL)
        return fprintf(stderr, "usage: assembler OUT\n"), 2;
    size_t written = fwrite(text, 1, a.count, out);
    return fclose(out) != 0 || written != a.count;
}
