/* See calls.h: the file, and room for what calls write. */
#define _GNU_SOURCE
#include "calls.h"
#include <stdio.h>
#include <stdlib.h>
#include <string.h>
#include <sys/mman.h>

/* Hunks that lie apart have so many bytes between them. */
#define GAP 16

struct taken taken;

static const struct {
    const char *name;
    size_t row; /* the bytes of a row, where the call writes some to `items` */
} calls[CALLS] = {
    [TABLE] = {"table", 0},
    [LOAD] = {"load", 0},
    [LOAD_AT] = {"load_at", 0},
    [FEED] = {"feed", 0},
    [CHECK] = {"check", sizeof(struct hunk_finding)},
    [STRIP] = {"strip", 0},
    [PLAIN] = {"plain", 0},
    [FRONT] = {"front", 0},
    [INPUT_PLACE] = {"input_place", 0},
    [UNITS] = {"units", sizeof(struct hunk_unit)},
    [BLOCKS] = {"blocks", sizeof(struct hunk_block)},
    [SYMBOLS] = {"symbols", sizeof(struct hunk_symbol)},
    [RELOCATIONS] = {"relocations", sizeof(struct hunk_relocation)},
    [ENTRIES] = {"entries", sizeof(struct hunk_entry)},
    [REFERENCES] = {"references", sizeof(struct hunk_reference)},
    [PARTS] = {"parts", sizeof(struct hunk_part)},
    [BUILD] = {"build", 0},
    [WARNINGS] = {"warnings", sizeof(struct hunk_warning)},
};

int call_named(const char *name)
{
    size_t len = strcspn(name, "/");
    taken.piece = name[len] ? strtoul(name + len + 1, NULL, 10) : 256;
    int call = 0;
    while (call < CALLS && (strlen(calls[call].name) != len || memcmp(calls[call].name, name, len)))
        call++;
    return taken.piece ? call : CALLS;
}

int is_load_file(void) { return taken.table.number == HUNK_OK; }

int is_accepted(void)
{
    struct hunk_answer a = hunk_check(taken.file, taken.file_len, NULL, 0);
    return a.number == HUNK_OK || a.number == HUNK_NO_ROOM;
}

int takes_file(int call)
{
    int is_object = taken.file_len >= 4 && taken.file[2] == 3 && taken.file[3] == 0xE7;
    switch (call) {
    case TABLE:
    case LOAD:
    case LOAD_AT:
        return !is_object;
    case FEED:
        return is_load_file();
    case BUILD:
        return taken.parts_len > 0;
    }
    return 1;
}

/* So many bytes and some more, which are zero, and are not there before they are written. */
static void *make_room(uint64_t bytes)
{
    void *room = mmap(NULL, bytes + 4096, PROT_READ | PROT_WRITE, MAP_PRIVATE | MAP_ANONYMOUS | MAP_NORESERVE, -1, 0);
    return room == MAP_FAILED ? NULL : room;
}

static int read_file(const char *name)
{
    FILE *in = fopen(name, "rb");
    if (!in || fseek(in, 0, SEEK_END))
        return 0;
    taken.file_len = (uint64_t)ftell(in);
    rewind(in);
    taken.file = make_room(taken.file_len);
    int is_read = taken.file && fread(taken.file, 1, taken.file_len, in) == taken.file_len;
    fclose(in);
    return is_read;
}

/* The table of a load file, and where its hunks lie; an object file has none, and what the machine can't address is
 * taken for one. */
static int place_hunks(void)
{
    taken.rows = make_room(MOST_ROWS * sizeof *taken.rows);
    taken.places = make_room(MOST_ROWS * sizeof *taken.places);
    taken.bases = make_room(MOST_ROWS * sizeof *taken.bases);
    if (!taken.rows || !taken.places || !taken.bases)
        return 0;
    taken.table = hunk_table(taken.file, taken.file_len, SIZE_MAX - 1, taken.rows, MOST_ROWS);
    taken.memory_len = is_load_file() ? taken.table.count : 0;
    uint32_t base = BASE;
    for (uint32_t i = 0; is_load_file() && i < taken.table.hunk; i++) {
        taken.places[i] = (struct hunk_place){taken.rows[i].word, taken.rows[i].extra, base};
        taken.bases[i] = base + i * GAP;
        base += taken.rows[i].bytes;
    }
    taken.apart_len = taken.memory_len + (is_load_file() ? (uint64_t)taken.table.hunk * GAP : 0);
    taken.memory = make_room(taken.apart_len);
    return taken.memory != NULL;
}

int take_file(const char *name)
{
    if (!read_file(name) || !place_hunks())
        return 0;
    uint64_t len = taken.file_len;
    taken.text_len = 6 * len + 64;
    taken.text = make_room(taken.text_len);
    taken.items = make_room(len * sizeof(struct hunk_warning));
    taken.room = make_room(len);
    taken.parts = make_room(len / 4 * sizeof *taken.parts);
    if (!taken.text || !taken.items || !taken.room || !taken.parts)
        return 0;
    struct hunk_answer parts = hunk_parts(taken.file, len, taken.parts, len / 4);
    taken.parts_len = parts.number == HUNK_OK ? parts.count : 0;
    return 1;
}

void *written_by(int call, struct hunk_answer answer, uint64_t *len)
{
    int is_ok = answer.number == HUNK_OK;
    *len = 0;
    switch (call) {
    case TABLE:
        *len = is_ok ? answer.hunk * sizeof *taken.rows : 0;
        return taken.rows;
    case LOAD:
    case FEED:
        *len = is_ok ? taken.memory_len : 0;
        return taken.memory;
    case LOAD_AT:
        *len = is_ok ? taken.apart_len : 0;
        return taken.memory;
    case STRIP:
    case PLAIN:
    case FRONT:
    case BUILD:
        *len = is_ok ? answer.count : 0;
        return taken.text;
    }
    *len = is_ok ? answer.count * calls[call].row : 0;
    return taken.items;
}
