/* Makes the call CALL on the file `input` TIMES times: ports/steps counts the instructions of that. */
#include "hunk.h"
#include <stdio.h>

#define MOST (1 << 18)

static uint8_t file[MOST], memory[MOST];
static struct hunk_block rows[MOST / 16];
static uint64_t len;

static inline struct hunk_answer load(void)
{
    return hunk_load_packed(file, len, 0x21000, memory, sizeof memory);
}

static inline struct hunk_answer check(void) { return hunk_check(file, len, NULL, 0); }
static inline struct hunk_answer strip(void) { return hunk_strip(file, len, memory, len); }

static inline struct hunk_answer blocks(void)
{
    return hunk_blocks(file, len, rows, sizeof rows / sizeof *rows);
}

int main(void)
{
    FILE *in = fopen("input", "rb");
    if (in == NULL)
        return 2;
    len = fread(file, 1, sizeof file, in);
    for (int times = 0; times < TIMES; times++)
        if (CALL().number != HUNK_OK)
            return 1;
    return 0;
}
