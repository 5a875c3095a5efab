/* The pieces of C that README.md and docs/CALLING.md show, each in a function. They are compiled, and
 * tests/pages/run sees that the pages have them so. */
#include "hunk.h"
#include <stdio.h>

void refuse(struct hunk_answer a);
size_t next_piece(uint8_t *piece);
void load_program(const uint8_t *file, size_t len, uint8_t *ram, size_t size, uint32_t base);
void show_block(const struct hunk_block *block);
void show_warning(const struct hunk_warning *warning);
void warn(const uint8_t *file, size_t len, uint32_t *room, struct hunk_warning *rows,
          size_t rows_len);
void strip_file(const uint8_t *file, size_t len, uint8_t *text, FILE *out);
void show_front(const uint8_t *input, size_t len, uint8_t *text, struct hunk_block *rows, size_t rows_len);
struct hunk_answer load_spelled(const uint8_t *input, size_t len, uint8_t *text, uint32_t base, uint8_t *memory, size_t size);
struct hunk_answer load_pieces(const struct hunk_place *places, struct hunk_answer t, uint8_t *memory, uint8_t *piece);
struct hunk_answer load_apart(const uint8_t *file, size_t len, struct hunk_answer t, const struct hunk_row *rows,
                              uint32_t *bases, uint8_t *memory, size_t size);

void load_program(const uint8_t *file, size_t len, uint8_t *ram, size_t size, uint32_t base)
{
    struct hunk_answer a = hunk_load_packed(file, len, base, ram + base, size - base);
    if (a.number != HUNK_OK)
        refuse(a);
}

void strip_file(const uint8_t *file, size_t len, uint8_t *text, FILE *out)
{
    struct hunk_answer a = hunk_strip(file, len, text, len);
    if (a.number == HUNK_OK)
        fwrite(text, 1, a.count, out);
}

void warn(const uint8_t *file, size_t len, uint32_t *room, struct hunk_warning *rows,
          size_t rows_len)
{
    struct hunk_answer w = hunk_warnings(file, len, room, len / 4, rows, rows_len);
    for (uint64_t i = 0; w.number == HUNK_OK && i < w.count; i++)
        show_warning(&rows[i]);
}

struct hunk_answer load_spelled(const uint8_t *input, size_t len, uint8_t *text, uint32_t base, uint8_t *memory, size_t size)
{
    struct hunk_answer p = hunk_plain(input, len, text, 2 * len);
    struct hunk_answer a = hunk_load_packed(text, p.count, base, memory, size);
    if (a.number != HUNK_OK)
        a.place = hunk_input_place(input, len, a.place);
    return a;
}

void show_front(const uint8_t *input, size_t len, uint8_t *text, struct hunk_block *rows, size_t rows_len)
{
    struct hunk_answer f = hunk_front(input, len, text, 4 * len);
    struct hunk_answer a = hunk_blocks(text, f.count, rows, rows_len);
    for (uint64_t i = 0; a.number == HUNK_OK && i < a.count && rows[i].place < f.place; i++)
        show_block(&rows[i]);
}

struct hunk_answer load_pieces(const struct hunk_place *places, struct hunk_answer t, uint8_t *memory, uint8_t *piece)
{
    struct hunk_loader loader;
    size_t len;
    hunk_begin(&loader, places, t.hunk, t.place, memory, t.count);
    while ((len = next_piece(piece)) > 0)
        hunk_feed(&loader, places, t.hunk, memory, t.count, piece, len);
    struct hunk_answer end = hunk_end(&loader);
    return end;
}

struct hunk_answer load_apart(const uint8_t *file, size_t len, struct hunk_answer t, const struct hunk_row *rows,
                              uint32_t *bases, uint8_t *memory, size_t size)
{
    uint32_t chip = 0x1000, fast = 0x200000;
    for (uint32_t h = 0; h < t.hunk; h++) {
        uint32_t *next = rows[h].memory == 1 ? &chip : &fast;
        bases[h] = *next;
        *next += rows[h].bytes;
    }
    return hunk_load_at(file, len, bases, t.hunk, 0x1000, memory, size);
}
