/* Each answer of the library on files, and all that it writes, as dump.mjs prints them of a module: dump < NAMES,
 * of files in this folder. Bytes are told by their number and a sum. */
#include "hunk.h"
#include <inttypes.h>
#include <stdarg.h>
#include <stdio.h>
#include <stdlib.h>
#include <string.h>

#define MOST (1 << 20)
#define BUDGET (UINT64_C(1) << 20)
#define BASE UINT32_C(0xFFFFF000)
#define PIECE 7

static uint8_t bytes[MOST], memory[MOST], text[MOST];
static size_t len;
static struct hunk_row *rows;
static struct hunk_place *places;
static uint32_t *bases;

static void *room(size_t size)
{
    void *at = calloc(1, size + 1);
    if (at == NULL)
        exit(3);
    return at;
}

static uint32_t sum(const uint8_t *at, size_t count)
{
    uint32_t h = UINT32_C(2166136261);
    for (size_t i = 0; i < count; i++)
        h = (h ^ at[i]) * UINT32_C(16777619);
    return h;
}

static void say(const char *call, struct hunk_answer a)
{
    if (a.number == HUNK_OK)
        printf("%s %" PRIu32 " %" PRIu64 " %" PRIu64 "\n", call, a.hunk, a.place, a.count);
    else
        printf("%s refused %" PRIu32 " %" PRIu32 " %" PRIu64 " %" PRIu64 "\n", call, a.number, a.hunk, a.place, a.count);
}

/* A row: so many numbers, each of 64 bits. */
static void say_row(int count, ...)
{
    va_list numbers;
    va_start(numbers, count);
    for (int i = 0; i < count; i++)
        printf("%s%" PRIu64, i == 0 ? "  " : " ", va_arg(numbers, uint64_t));
    va_end(numbers);
    printf("\n");
}

#define N(number) ((uint64_t)(number))

static void say_name(uint64_t name, uint64_t name_bytes)
{
    printf("  = ");
    for (uint64_t i = name; i < name + name_bytes; i++)
        printf("%02x", bytes[i]);
    printf("\n");
}

/* ---- The calls that write rows: TABLE names a call, its struct, and what is said of a row. */

#define TABLE(call, type, ...)                                                                     \
    static void call##_of_file(void)                                                               \
    {                                                                                              \
        struct hunk_answer a = hunk_##call(bytes, len, NULL, 0);                                   \
        struct type *found = room(a.count * sizeof *found);                                        \
        if (a.number == HUNK_NO_ROOM)                                                              \
            a = hunk_##call(bytes, len, found, a.count);                                           \
        say(#call, a);                                                                             \
        for (uint64_t i = 0; a.number == HUNK_OK && i < a.count; i++) {                            \
            struct type r = found[i];                                                              \
            __VA_ARGS__;                                                                           \
        }                                                                                          \
        free(found);                                                                               \
    }

TABLE(check, hunk_finding, say_row(5, r.place, r.unit, r.hunk, N(r.offset), N(r.fault)))
TABLE(units, hunk_unit, say_row(4, r.place, r.name, r.name_bytes, r.hunks); say_name(r.name, r.name_bytes))
TABLE(blocks, hunk_block,
      say_row(10, r.place, r.bytes, r.unit, r.hunk, r.content, r.content_bytes, r.memory, r.items, N(r.kind),
              N(r.flags)))
TABLE(symbols, hunk_symbol, say_row(6, r.place, r.unit, r.hunk, r.name, r.name_bytes, N(r.value));
      say_name(r.name, r.name_bytes))
TABLE(relocations, hunk_relocation,
      say_row(7, r.place, r.unit, r.hunk, N(r.kind), N(r.width), N(r.target), N(r.offset)))
TABLE(entries, hunk_entry,
      say_row(8, r.place, r.unit, r.hunk, r.name, r.name_bytes, r.references, N(r.value), N(r.kind));
      say_name(r.name, r.name_bytes))
TABLE(references, hunk_reference, say_row(4, r.entry, r.place, N(r.offset), N(r.width)))
TABLE(parts, hunk_part,
      say_row(7, N(r.what), N(r.word), N(r.value), r.content, r.content_bytes, r.offsets, r.offset_count))

/* With room for all that a file may have. */
static void warnings_of_file(void)
{
    uint32_t *elements = room(len / 4 * sizeof *elements);
    struct hunk_warning *found = room(len * sizeof *found);
    struct hunk_answer a = hunk_warnings(bytes, len, elements, len / 4, found, len);
    say("warnings", a);
    for (uint64_t i = 0; a.number == HUNK_OK && i < a.count; i++) {
        struct hunk_warning r = found[i];
        say_row(7, r.place, r.hunk, N(r.kind), N(r.offset), N(r.target), N(r.value), N(r.other));
    }
    free(elements);
    free(found);
}

/* ---- Load files. */

static struct hunk_answer read_table(void)
{
    struct hunk_answer a = hunk_table(bytes, len, BUDGET, NULL, 0);
    rows = room(a.hunk * sizeof *rows);
    places = room(a.hunk * sizeof *places);
    bases = room(a.hunk * sizeof *bases);
    if (a.number == HUNK_NO_ROOM)
        a = hunk_table(bytes, len, BUDGET, rows, a.hunk);
    say("table", a);
    for (uint32_t h = 0; a.number == HUNK_OK && h < a.hunk; h++) {
        say_row(4, N(rows[h].word), N(rows[h].extra), N(rows[h].bytes), N(rows[h].memory));
        bases[h] = BASE + 0x10000 * h;
        places[h].word = rows[h].word;
        places[h].extra = rows[h].extra;
        places[h].base = bases[h];
    }
    return a;
}

static void say_loaded(const char *call, struct hunk_answer a)
{
    say(call, a);
    if (a.number == HUNK_OK)
        printf("  %08" PRIx32 "\n", sum(memory, a.count));
}

/* A loader is fed PIECE bytes at a time, and asked before each how many it wants. */
static void stream(struct hunk_answer table)
{
    struct hunk_loader loader;
    uint32_t wants = 0;
    size_t at = table.place;
    struct hunk_answer a = hunk_begin(&loader, places, table.hunk, table.place, memory, table.count);
    while (a.number == HUNK_OK && at < len) {
        struct hunk_answer want = hunk_want(&loader);
        wants = wants * 31 + (uint32_t)want.count + 7 * (uint32_t)want.place + 13 * want.hunk;
        size_t piece = len - at < PIECE ? len - at : PIECE;
        a = hunk_feed(&loader, places, table.hunk, memory, table.count, bytes + at, piece);
        at += a.count;
        if (a.count < piece)
            break;
    }
    say_loaded("stream", a.number == HUNK_OK ? hunk_end(&loader) : a);
    printf("  wants %" PRIu32 "\n", wants);
}

/* Each hunk to its own place, the last first. */
static void place(uint32_t hunks, size_t size)
{
    size_t at = 0;
    for (uint32_t h = hunks; h-- > 0; at += rows[h].bytes)
        bases[h] = BASE / 2 + (uint32_t)at;
    struct hunk_answer a = hunk_load_at(bytes, len, bases, hunks, BASE / 2, memory, size);
    say_loaded("at", a);
}

static void load_file(void)
{
    struct hunk_answer table = read_table();
    if (table.number == HUNK_OK) {
        say_loaded("load", hunk_load(bytes, len, bases, table.hunk, memory, table.count));
        say_loaded("packed", hunk_load_packed(bytes, len, BASE, memory, table.count));
        stream(table);
        place(table.hunk, table.count);
    }
    free(rows);
    free(places);
    free(bases);
}

static void strip_file(void)
{
    struct hunk_answer a = hunk_strip(bytes, len, text, len);
    say("strip", a);
    if (a.number == HUNK_OK)
        printf("  %08" PRIx32 "\n", sum(text, a.count));
}

static void plain_file(void)
{
    struct hunk_spelling s = hunk_spelling_of(bytes, len);
    struct hunk_answer a = hunk_plain(bytes, len, text, MOST);
    printf("plain %" PRIu64 " %" PRIu64 " %" PRIu64 "\n", s.bytes, s.short_blocks, s.ends);
    printf("  %08" PRIx32 " %" PRIu64 "\n", sum(text, a.count), hunk_input_place(bytes, len, a.count));
}

static void front_of_file(void)
{
    struct hunk_answer a = hunk_front(bytes, len, text, MOST);
    say("front", a);
    printf("  %08" PRIx32 "\n", sum(text, a.count));
}

static void say_reasons(void)
{
    for (uint32_t number = 0; number < 40; number++) {
        struct hunk_answer name = hunk_reason(number, text, MOST);
        printf("%" PRIu32 " %.*s: ", number, (int)name.count, (char *)text);
        struct hunk_answer sentence = hunk_reason_text(number, text, MOST);
        printf("%.*s\n", (int)sentence.count, (char *)text);
    }
}

int main(void)
{
    static char name[4096];
    printf("abi %" PRIu32 "\n", hunk_abi());
    say_reasons();
    while (fgets(name, sizeof name, stdin) != NULL) {
        name[strcspn(name, "\n")] = 0;
        FILE *in = fopen(name, "rb");
        if (in == NULL)
            return 3;
        len = fread(bytes, 1, MOST, in);
        fclose(in);
        printf("== %s\n", name);
        check_of_file();
        units_of_file();
        blocks_of_file();
        symbols_of_file();
        relocations_of_file();
        entries_of_file();
        references_of_file();
        parts_of_file();
        warnings_of_file();
        strip_file();
        plain_file();
        front_of_file();
        load_file();
    }
    return 0;
}
