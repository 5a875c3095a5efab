/* Prints the symbols of a hunk file: symbols FILE */
#include "hunk.h"
#include <inttypes.h>
#include <stdio.h>
#include <stdlib.h>

static uint8_t file[1 << 24];

static int refuse(struct hunk_answer a)
{
    uint8_t text[256];
    struct hunk_answer t = hunk_reason_text(a.number, text, sizeof text);
    fprintf(stderr, "symbols: byte %" PRIu64 ": %.*s\n", a.place, (int)t.count, (char *)text);
    return 1;
}

int main(int argc, char **argv)
{
    FILE *in = argc > 1 ? fopen(argv[1], "rb") : NULL;
    if (in == NULL)
        return fprintf(stderr, "usage: symbols FILE\n"), 2;
    size_t len = fread(file, 1, sizeof file, in);
    struct hunk_answer a = hunk_symbols(file, len, NULL, 0); /* how many there are */
    if (a.number != HUNK_OK && a.number != HUNK_NO_ROOM)
        return refuse(a);
    struct hunk_symbol *rows = calloc(a.count + 1, sizeof *rows);
    if (rows == NULL)
        return 3;
    a = hunk_symbols(file, len, rows, a.count);
    for (uint64_t i = 0; i < a.count; i++)
        printf("hunk %" PRIu64 " %08" PRIx32 " %.*s\n", rows[i].hunk, rows[i].value,
               (int)rows[i].name_bytes, (char *)file + rows[i].name);
    return 0;
}
