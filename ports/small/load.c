/* Loads a load file within a fixed memory, as a system without an operating system does: the file
 * comes in pieces of any size, from flash or a serial line, and no copy of it is kept. It reports
 * each hunk, or the number of the refusal, by board.h. */
#include "board.h"
#include "hunk.h"

#define HUNKS 16
#define MEMORY 4096
#define PIECE 32
#define BASE UINT32_C(0x21000)

/* The header has to be held whole: five longwords, and one for each hunk, or two by attributes. */
static uint8_t header[4 * (5 + 2 * HUNKS)];
static uint8_t memory[MEMORY];
static struct hunk_row rows[HUNKS];
static struct hunk_place places[HUNKS];
static struct hunk_loader loader;

static struct hunk_answer load(void)
{
    size_t held = 0;
    struct hunk_answer a = hunk_table(header, held, MEMORY, rows, HUNKS);
    while (a.number == HUNK_TRUNCATED && a.count <= sizeof header - held) {
        const size_t came = receive(header + held, (size_t)a.count);
        if (came == 0)
            return a;
        held += came;
        a = hunk_table(header, held, MEMORY, rows, HUNKS);
    }
    if (a.number == HUNK_TRUNCATED)
        a.number = HUNK_NO_ROOM;
    if (a.number != HUNK_OK)
        return a;
    uint32_t base = BASE;
    for (uint32_t h = 0; h < a.hunk; base += rows[h].bytes, h++)
        places[h] = (struct hunk_place){rows[h].word, rows[h].extra, base};
    const struct hunk_answer t = a;
    a = hunk_begin(&loader, places, t.hunk, t.place, memory, t.count);
    while (a.number == HUNK_OK) {
        static uint8_t piece[PIECE];
        const size_t came = receive(piece, PIECE);
        if (came == 0)
            break;
        a = hunk_feed(&loader, places, t.hunk, memory, t.count, piece, came);
        if (a.count < came)
            break;
    }
    return a.number == HUNK_OK ? hunk_end(&loader) : a;
}

int main(void)
{
    const struct hunk_answer a = load();
    if (a.number != HUNK_OK) {
        report("refused", a.number, NULL, 0);
        return 1;
    }
    for (uint32_t h = 0, at = 0; h < a.hunk; at += rows[h].bytes, h++)
        report("hunk", places[h].base, memory + at, rows[h].bytes);
    return 0;
}
