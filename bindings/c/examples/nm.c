/* Lists the names of a hunk file by their addresses: nm FILE [BASE]
 *
 * The hunks lie one after the other from BASE on, or from 0. T, D and B are names in CODE, DATA and
 * BSS, A absolute values, C common blocks, with their bytes, and U other names that are referred to. */
#include "hunk.h"
#include <inttypes.h>
#include <stdio.h>
#include <stdlib.h>
#include <string.h>

struct name {
    int type;       /* the letter */
    uint32_t value; /* the address, or the bytes of a common block */
    const uint8_t *text;
    uint64_t len;
};

/* Where a hunk lies, and the letter of its names. */
struct hunk {
    uint64_t unit, hunk;
    uint32_t base;
    int type;
};

static uint8_t file[1 << 24];
static size_t len;

static void *room(uint64_t count, size_t bytes)
{
    void *made = calloc(count + 1, bytes);
    if (made == NULL) {
        fprintf(stderr, "nm: out of memory\n");
        exit(3);
    }
    return made;
}

/* Asks a call how many rows it has, and has it write them. */
#define LIST(call, rows, number)                                                                   \
    (number = call(file, len, NULL, 0).count, rows = room(number, sizeof *rows),                   \
     (void)call(file, len, rows, number))

static int refuse(struct hunk_answer a)
{
    uint8_t text[200];
    struct hunk_answer t = hunk_reason_text(a.number, text, sizeof text);
    fprintf(stderr, "nm: byte %" PRIu64 ": %.*s\n", a.place, (int)t.count, (char *)text);
    return 1;
}

/* Each hunk has one block of CODE, DATA or BSS; a load file declares how long the hunk is. */
static struct hunk *lay_out(uint32_t address, const struct hunk_row *declared)
{
    struct hunk_block *blocks;
    uint64_t count, made = 0;
    LIST(hunk_blocks, blocks, count);
    struct hunk *hunks = room(count, sizeof *hunks);
    for (uint64_t i = 0; i < count; i++) {
        const struct hunk_block *b = &blocks[i];
        if (b->kind < 0x3E9 || b->kind > 0x3EB)
            continue;
        struct hunk h = {b->unit, b->hunk, address, "TDB"[b->kind - 0x3E9]};
        hunks[made++] = h;
        address += declared != NULL ? declared[b->hunk].bytes : (uint32_t)b->memory;
    }
    free(blocks);
    return hunks;
}

/* The hunk, which is this one or one after it. */
static const struct hunk *find(const struct hunk *h, uint64_t unit, uint64_t hunk)
{
    while (h->unit != unit || h->hunk != hunk)
        h++;
    return h;
}

static struct name named(int type, uint32_t value, uint64_t name, uint64_t name_bytes)
{
    struct name made = {type, value, file + name, name_bytes};
    return made;
}

static struct name of_entry(const struct hunk_entry *e, const struct hunk *h)
{
    if (e->kind == 130 || e->kind == 137) /* COMMON and RELCOMMON */
        return named('C', e->value, e->name, e->name_bytes);
    if (e->kind > 2)
        return named('U', 0, e->name, e->name_bytes);
    int is_absolute = e->kind == 2;
    return named(is_absolute ? 'A' : h->type, is_absolute ? e->value : h->base + e->value, e->name,
                 e->name_bytes);
}

/* Names without an address first, then by address, then by name. */
static int compare(const void *one, const void *other)
{
    const struct name *a = one, *b = other;
    int order = (b->type == 'U') - (a->type == 'U');
    if (order == 0)
        order = (b->type == 'C') - (a->type == 'C');
    if (order == 0)
        order = (a->value > b->value) - (a->value < b->value);
    if (order == 0)
        order = memcmp(a->text, b->text, a->len < b->len ? a->len : b->len);
    return order != 0 ? order : (a->len > b->len) - (a->len < b->len);
}

static void print(const struct name *n)
{
    if (n->type == 'U')
        printf("%8s U ", "");
    else
        printf("%08" PRIX32 " %c ", n->value, n->type);
    for (uint64_t i = 0; i < n->len; i++) {
        int is_plain = n->text[i] >= 0x20 && n->text[i] < 0x7F && n->text[i] != '\\';
        printf(is_plain ? "%c" : "\\x%02x", n->text[i]);
    }
    printf("\n");
}

int main(int argc, char **argv)
{
    FILE *in = argc > 1 ? fopen(argv[1], "rb") : NULL;
    if (in == NULL)
        return fprintf(stderr, "usage: nm FILE [BASE]\n"), 2;
    len = fread(file, 1, sizeof file, in);
    struct hunk_answer a = hunk_symbols(file, len, NULL, 0);
    if (a.number != HUNK_OK && a.number != HUNK_NO_ROOM)
        return refuse(a);
    uint32_t base = argc > 2 ? (uint32_t)strtoul(argv[2], NULL, 16) : 0;
    struct hunk_row *declared = a.hunk > 0 ? room(a.hunk, sizeof *declared) : NULL;
    if (declared != NULL)
        hunk_table(file, len, UINT64_MAX, declared, a.hunk);
    const struct hunk *hunks = lay_out(base, declared), *at = hunks;

    struct hunk_symbol *symbols;
    struct hunk_entry *entries;
    uint64_t symbol_count, entry_count, count = 0;
    LIST(hunk_symbols, symbols, symbol_count);
    LIST(hunk_entries, entries, entry_count);
    struct name *names = room(symbol_count + entry_count, sizeof *names);
    for (const struct hunk_symbol *s = symbols; s < symbols + symbol_count; s++) {
        at = find(at, s->unit, s->hunk);
        names[count++] = named(at->type, at->base + s->value, s->name, s->name_bytes);
    }
    at = hunks;
    for (const struct hunk_entry *e = entries; e < entries + entry_count; e++) {
        at = find(at, e->unit, e->hunk);
        names[count++] = of_entry(e, at);
    }
    qsort(names, count, sizeof *names, compare);
    for (uint64_t i = 0; i < count; i++)
        if (names[i].type != 'U' || i == 0 || compare(&names[i - 1], &names[i]) != 0)
            print(&names[i]);
    return 0;
}
