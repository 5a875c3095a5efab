/* What the tests from C share: arrays that end where a page begins that faults, since the
 * sanitizers do not see the loads and stores of the library itself, and looks at an answer. */
#ifndef GUARDED_H
#define GUARDED_H

#define _DEFAULT_SOURCE
#include "hunk.h"
#include <inttypes.h>
#include <stdio.h>
#include <stdlib.h>
#include <string.h>
#include <sys/mman.h>

#define PAGE 65536
#define MARK 0xA5
#define AFTER 64 /* bytes, or rows, that have to stay as they were */

static int failures;

static inline void expect(int holds, const char *file, const char *what)
{
    if (!holds) {
        fprintf(stderr, "%s: %s\n", file, what);
        failures++;
    }
}

/* Room for so many bytes, up to a page that faults. */
struct guarded {
    size_t size;
    uint8_t *end;
};

static inline int make_guarded(struct guarded *g)
{
    size_t len = (g->size + PAGE - 1) / PAGE * PAGE;
    uint8_t *at = mmap(NULL, len + PAGE, PROT_READ | PROT_WRITE, MAP_PRIVATE | MAP_ANONYMOUS,
                       -1, 0);
    if (at == MAP_FAILED || mprotect(at + len, PAGE, PROT_NONE) != 0)
        return 0;
    g->end = at + len;
    return 1;
}

/* The last bytes of the room, each of them the mark. */
static inline void *marked(const struct guarded *g, size_t len)
{
    if (len > g->size)
        exit(3);
    memset(g->end - len, MARK, len);
    return g->end - len;
}

static inline int all_marked(const void *memory, size_t len)
{
    const uint8_t *at = memory;
    for (size_t i = 0; i < len; i++)
        if (at[i] != MARK)
            return 0;
    return 1;
}

/* The bytes of the file of that name, up to a page that faults, and how many they are. */
static inline const uint8_t *read_file(const struct guarded *g, const char *name, size_t *len)
{
    static uint8_t buffer[1 << 20];
    FILE *file = fopen(name, "rb");
    if (file == NULL)
        exit(3);
    *len = fread(buffer, 1, sizeof buffer, file);
    fclose(file);
    uint8_t *bytes = marked(g, *len);
    memcpy(bytes, buffer, *len);
    return bytes;
}

static inline int same(struct hunk_answer a, struct hunk_answer b)
{
    return a.number == b.number && a.hunk == b.hunk && a.place == b.place && a.count == b.count;
}

static inline void print_refusal(struct hunk_answer a)
{
    uint8_t name[17];
    struct hunk_answer n = hunk_reason(a.number, name, sizeof name);
    printf("refused at byte %" PRIu64 ": %.*s (%" PRIu32 ")", a.place, (int)n.count, (char *)name,
           a.number);
    if (a.number == HUNK_NO_BASE)
        printf(" hunk %" PRIu32, a.hunk);
    printf("\n");
}

#endif
