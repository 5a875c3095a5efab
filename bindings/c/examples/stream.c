/* Loads a hunk file as it comes, and prints the sum of the bytes of each hunk: stream [BASE] < FILE
 *
 * It reads no byte after the file: what follows on a pipe stays there. No call of the library asks
 * for memory. */
#include "hunk.h"
#include <inttypes.h>
#include <stdio.h>
#include <stdlib.h>

#define HUNKS 64
#define HEADER (20 + 8 * HUNKS) /* five longwords, and up to two for each hunk */

static struct hunk_row rows[HUNKS];
static struct hunk_place places[HUNKS];
static uint8_t memory[1 << 20], piece[HEADER];

static int refuse(struct hunk_answer a)
{
    uint8_t name[17];
    struct hunk_answer n = hunk_reason(a.number, name, sizeof name);
    fprintf(stderr, "stream: byte %" PRIu64 ": %.*s\n", a.place, (int)n.count, (char *)name);
    return 1;
}

/* The table of the header, read as long as it asks for more, and there is room. */
static struct hunk_answer read_table(void)
{
    size_t len = 0;
    struct hunk_answer t = hunk_table(piece, 0, sizeof memory, rows, HUNKS);
    while (t.number == HUNK_TRUNCATED && t.count <= sizeof piece - len) {
        size_t came = fread(piece + len, 1, t.count, stdin);
        if (came == 0)
            break;
        len += came;
        t = hunk_table(piece, len, sizeof memory, rows, HUNKS);
    }
    return t;
}

int main(int argc, char **argv)
{
    uint32_t base = argc > 1 ? (uint32_t)strtoul(argv[1], NULL, 16) : 0x1000;
    struct hunk_loader loader;
    setvbuf(stdin, NULL, _IONBF, 0); /* so that no more is read than is asked for */
    struct hunk_answer t = read_table();
    if (t.number != HUNK_OK)
        return refuse(t);
    for (uint32_t h = 0; h < t.hunk; h++) {
        struct hunk_place place = {rows[h].word, rows[h].extra, base};
        places[h] = place;
        base += rows[h].bytes;
    }
    struct hunk_answer begin = hunk_begin(&loader, places, t.hunk, t.place, memory, t.count);
    if (begin.number != HUNK_OK)
        return refuse(begin);
    struct hunk_answer want = hunk_want(&loader);
    while (want.number == HUNK_OK && want.count > 0) {
        size_t most = want.count < sizeof piece ? want.count : sizeof piece;
        size_t len = fread(piece, 1, most, stdin);
        if (len == 0)
            break;
        hunk_feed(&loader, places, t.hunk, memory, t.count, piece, len);
        want = hunk_want(&loader);
    }
    struct hunk_answer end = hunk_end(&loader); /* a fault of any piece, too */
    if (end.number != HUNK_OK)
        return refuse(end);
    const uint8_t *at = memory;
    for (uint32_t h = 0; h < end.hunk; h++) {
        uint32_t sum = 0;
        for (uint32_t i = 0; i < rows[h].bytes; i++)
            sum += *at++;
        printf("hunk %" PRIu32 " at %08" PRIX32 ": %" PRIu32 "\n", h, places[h].base, sum);
    }
    return 0;
}
