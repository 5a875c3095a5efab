/* Loads a hunk file at an address, and prints the bytes of each hunk: load FILE [BASE] */
#include "hunk.h"
#include <inttypes.h>
#include <stdio.h>
#include <stdlib.h>

#define BUDGET (UINT64_C(1) << 24)

static uint8_t file[1 << 24];

static int refuse(struct hunk_answer a)
{
    uint8_t name[17];
    struct hunk_answer n = hunk_reason(a.number, name, sizeof name);
    fprintf(stderr, "load: byte %" PRIu64 ": %.*s\n", a.place, (int)n.count, (char *)name);
    return 1;
}

int main(int argc, char **argv)
{
    FILE *in = argc > 1 ? fopen(argv[1], "rb") : NULL;
    if (in == NULL)
        return fprintf(stderr, "usage: load FILE [BASE]\n"), 2;
    size_t len = fread(file, 1, sizeof file, in);
    uint32_t base = argc > 2 ? (uint32_t)strtoul(argv[2], NULL, 16) : 0x1000;
    struct hunk_row none;
    struct hunk_answer t = hunk_table(file, len, BUDGET, &none, 0);
    if (t.number != HUNK_NO_ROOM) /* each table has a row, so none will not do */
        return refuse(t);
    struct hunk_row *rows = malloc(t.hunk * sizeof *rows);
    uint8_t *memory = malloc(t.count + 1);
    if (rows == NULL || memory == NULL)
        return 3;
    hunk_table(file, len, BUDGET, rows, t.hunk);
    struct hunk_answer a = hunk_load_packed(file, len, base, memory, t.count);
    if (a.number != HUNK_OK)
        return refuse(a);
    const uint8_t *at = memory;
    for (uint32_t h = 0; h < a.hunk; h++) {
        printf("hunk %" PRIu32 " at %08" PRIX64 ":", h, base + (uint64_t)(at - memory));
        for (uint32_t i = 0; i < rows[h].bytes; i++)
            printf("%s%02X", i % 4 == 0 ? " " : "", *at++);
        printf("\n");
    }
    return 0;
}
