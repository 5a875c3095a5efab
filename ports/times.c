/* times FILE..: processor milliseconds that the calls take on each file, the least of five. */
#include "hunk.h"
#include <stdio.h>
#include <stdlib.h>
#include <time.h>

#define BUDGET (UINT64_C(1) << 30)
#define BASE UINT32_C(0x21000)
#define RUNS 5

struct input {
    uint8_t *bytes, *out;
    size_t len, out_len;
};

static double now(void)
{
    struct timespec t;
    clock_gettime(CLOCK_PROCESS_CPUTIME_ID, &t);
    return (double)t.tv_sec * 1e3 + (double)t.tv_nsec / 1e6;
}

static struct hunk_answer load(struct input *f)
{
    return hunk_load_packed(f->bytes, f->len, BASE, f->out, f->out_len);
}

static struct hunk_answer check(struct input *f)
{
    return hunk_check(f->bytes, f->len, NULL, 0);
}

static struct hunk_answer blocks(struct input *f)
{
    return hunk_blocks(f->bytes, f->len, NULL, 0);
}

static struct hunk_answer strip(struct input *f)
{
    return hunk_strip(f->bytes, f->len, f->out, f->out_len);
}

static const struct {
    const char *name;
    struct hunk_answer (*call)(struct input *);
} calls[] = {{"load", load}, {"check", check}, {"blocks", blocks}, {"strip", strip}};

int main(int argc, char **argv)
{
    for (int i = 1; i < argc; i++) {
        struct input f = {malloc(BUDGET / 8), malloc(BUDGET / 8), 0, BUDGET / 8};
        FILE *in = fopen(argv[i], "rb");
        if (f.bytes == NULL || f.out == NULL || in == NULL)
            return 3;
        f.len = fread(f.bytes, 1, BUDGET / 8, in);
        fclose(in);
        printf("%s", argv[i]);
        for (size_t c = 0; c < sizeof calls / sizeof *calls; c++) {
            double best = 1e9;
            for (int run = 0; run < RUNS; run++) {
                double began = now();
                calls[c].call(&f);
                double took = now() - began;
                best = took < best ? took : best;
            }
            printf(" %s %.1f", calls[c].name, best);
        }
        printf("\n");
        free(f.bytes);
        free(f.out);
    }
    return 0;
}
