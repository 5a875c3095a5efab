/* calls FILE..: prints what the calls under the bindings take of each file, in processor microseconds: the least of some rounds.
 * Memory is taken for each call, and given back, as a binding has to. */
#include "hunk.h"
#include <stdio.h>
#include <stdlib.h>
#include <string.h>
#include <time.h>

enum { ROUNDS = 25, LEAST = 4000 };

static uint8_t *bytes;
static uint64_t size;
static uint64_t sum;

static void fail(const char *what)
{
    perror(what);
    exit(1);
}

static void *taken(uint64_t length)
{
    void *memory = malloc(length ? length : 1);
    if (!memory)
        fail("malloc");
    return memory;
}

static void load(void)
{
    struct hunk_answer asked = hunk_table(bytes, size, 1 << 24, NULL, 0);
    uint8_t *memory = taken(asked.count);
    sum += hunk_load_packed(bytes, size, 0x1000, memory, asked.count).count;
    free(memory);
}

static void read_only(void)
{
    sum += hunk_units(bytes, size, NULL, 0).place;
}

static struct hunk_relocation *relocations;
static struct hunk_symbol *symbols;
static uint64_t count;

static void open_relocations(void)
{
    read_only();
    free(relocations);
    count = hunk_relocations(bytes, size, NULL, 0).count;
    relocations = taken(count * sizeof *relocations);
    sum += hunk_relocations(bytes, size, relocations, count).count;
}

static void open_symbols(void)
{
    read_only();
    free(symbols);
    count = hunk_symbols(bytes, size, NULL, 0).count;
    symbols = taken(count * sizeof *symbols);
    sum += hunk_symbols(bytes, size, symbols, count).count;
}

static void each_relocation(void)
{
    for (uint64_t i = 0; i < count; i++)
        sum += relocations[i].offset + relocations[i].target;
}

static void each_symbol(void)
{
    for (uint64_t i = 0; i < count; i++)
        sum += symbols[i].value + symbols[i].name_bytes;
}

static double took(void (*act)(void), unsigned times)
{
    clock_t start = clock();
    for (unsigned i = 0; i < times; i++)
        act();
    return (double)(clock() - start) * 1000000 / CLOCKS_PER_SEC;
}

static void print(const char *file, const char *what, void (*act)(void))
{
    unsigned times = 1;
    while (took(act, times) < LEAST)
        times *= 2;
    double least = took(act, times);
    for (int i = 1; i < ROUNDS; i++) {
        double it = took(act, times);
        least = it < least ? it : least;
    }
    printf("%s %s %.2f\n", file, what, least / times);
}

int main(int argc, char **argv)
{
    for (int i = 1; i < argc; i++) {
        FILE *file = fopen(argv[i], "rb");
        if (!file || fseek(file, 0, SEEK_END))
            fail(argv[i]);
        size = (uint64_t)ftell(file);
        rewind(file);
        bytes = taken(size);
        if (fread(bytes, 1, size, file) != size)
            fail(argv[i]);
        fclose(file);
        int has_symbols = strcmp(argv[i], "symbols") == 0;
        print(argv[i], "load", load);
        print(argv[i], "read", read_only);
        print(argv[i], "list", has_symbols ? open_symbols : open_relocations);
        print(argv[i], "rows", has_symbols ? each_symbol : each_relocation);
        free(bytes);
    }
    return sum == 1;
}
