/* Prints what is wrong with the offsets of an object file, or that there is nothing: check FILE */
#include "hunk.h"
#include <inttypes.h>
#include <stdio.h>
#include <stdlib.h>

static uint8_t file[1 << 24];

static int refuse(struct hunk_answer a)
{
    uint8_t name[17];
    struct hunk_answer n = hunk_reason(a.number, name, sizeof name);
    fprintf(stderr, "check: byte %" PRIu64 ": %.*s\n", a.place, (int)n.count, (char *)name);
    return 1;
}

int main(int argc, char **argv)
{
    FILE *in = argc > 1 ? fopen(argv[1], "rb") : NULL;
    if (in == NULL)
        return fprintf(stderr, "usage: check FILE\n"), 2;
    size_t len = fread(file, 1, sizeof file, in);
    struct hunk_finding none;
    struct hunk_answer a = hunk_check(file, len, &none, 0);
    if (a.number != HUNK_OK && a.number != HUNK_NO_ROOM)
        return refuse(a);
    uint64_t count = a.count;
    struct hunk_finding *rows = calloc(count + 1, sizeof *rows);
    if (rows == NULL)
        return 3;
    a = hunk_check(file, len, rows, count);
    if (a.number != HUNK_OK)
        return refuse(a);
    for (uint64_t i = 0; i < count; i++)
        printf("unit %" PRIu64 " hunk %" PRIu64 " offset %" PRIu32 ": %s\n", rows[i].unit,
               rows[i].hunk, rows[i].offset,
               rows[i].fault == HUNK_FINDING_BAD_TARGET ? "no such target" : "outside of the hunk");
    printf("%s file: %" PRIu64 " findings\n", a.hunk > 0 ? "load" : "object", count);
    return 0;
}
