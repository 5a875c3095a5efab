/* What each call takes by the clock, beside loaders in C: clock ROUNDS FILE CALL.. prints a line for each call, with
 * tabs between the file, the call, the nanoseconds of the library's, of the plain loader's and of the careful one's,
 * and by which compilers these two were the quickest. All are made in turn, and of each the least of so many rounds
 * counts. Before, each has to leave what the library's call leaves; a line ends with `!` where one does not. */
#include "calls.h"
#include <stdio.h>
#include <stdlib.h>
#include <string.h>
#include <time.h>

/* A round is as many calls as take this many nanoseconds. A call that takes more than LONG has a third of the rounds.
 */
#define ROUND 100000
#define LONG 10000000
/* So many bytes after what a call writes are looked at, too. */
#define AFTER 64
#define MOST_MAKERS 32

/* The loaders in C, compiled by one compiler. */
extern const struct compiled {
    const char *compiler;
    maker *const *plain, *const *careful;
} compiled[];
extern const int compilers;

/* One that makes a call. */
struct timed {
    maker *call;
    const char *compiler;
    int is_careful;
    double least;
};

static volatile uint64_t seen;

static double now(void)
{
    struct timespec time;
    clock_gettime(CLOCK_THREAD_CPUTIME_ID, &time);
    return (double)time.tv_sec * 1e9 + (double)time.tv_nsec;
}

/* The nanoseconds that one of so many calls takes. */
static double each(maker *call, int times)
{
    double begun = now();
    for (int i = 0; i < times; i++)
        seen += call().count;
    return (now() - begun) / times;
}

/* ---- whether all leave the same */

/* What a call answers, and the bytes that it writes, with some after them. */
struct left {
    struct hunk_answer answer;
    uint64_t len;
    uint8_t *bytes;
};

static struct left left_by_library(int call)
{
    struct left left = {library_calls[call](), 0, NULL};
    void *written = written_by(call, left.answer, &left.len);
    memset(written, 0xAA, left.len + AFTER);
    left.answer = library_calls[call]();
    left.bytes = malloc(left.len + AFTER);
    if (!left.bytes)
        exit(2);
    memcpy(left.bytes, written, left.len + AFTER);
    return left;
}

static int is_same(struct hunk_answer a, struct hunk_answer b)
{
    return a.number == b.number && a.hunk == b.hunk && a.place == b.place && a.count == b.count;
}

/* The plain loader may name another reason, and leave other bytes, where it refuses. */
static int leaves_same(int call, const struct timed *made, const struct left *left)
{
    uint64_t len;
    void *written = written_by(call, left->answer, &len);
    memset(written, 0xAA, len + AFTER);
    struct hunk_answer answer = made->call();
    if (!made->is_careful && left->answer.number != HUNK_OK)
        return answer.number != HUNK_OK;
    return is_same(answer, left->answer) && !memcmp(written, left->bytes, len + AFTER);
}

static int compare(int call, const struct timed *made, int count)
{
    struct left left = left_by_library(call);
    int same = 1;
    for (int i = 1; i < count; i++) {
        if (leaves_same(call, made + i, &left))
            continue;
        fprintf(stderr, "%s: the %s loader leaves something else\n", made[i].compiler,
                made[i].is_careful ? "careful" : "plain");
        same = 0;
    }
    free(left.bytes);
    return same;
}

/* ---- times */

/* Those that make the call, the library first. */
static int gather(int call, struct timed *made)
{
    int count = 0;
    made[count++] = (struct timed){library_calls[call], "", 1, 1e18};
    for (int i = 0; i < compilers; i++)
        if (compiled[i].plain[call])
            made[count++] = (struct timed){compiled[i].plain[call], compiled[i].compiler, 0, 1e18};
    for (int i = 0; i < compilers; i++)
        if (compiled[i].careful[call])
            made[count++] = (struct timed){compiled[i].careful[call], compiled[i].compiler, 1, 1e18};
    return count;
}

static void time_all(struct timed *made, int count, int rounds)
{
    double once = each(made[0].call, 1);
    int times = once < ROUND ? (int)(ROUND / (once + 20)) + 1 : 1;
    if (once > LONG)
        rounds = (rounds + 2) / 3;
    for (int round = 0; round < rounds; round++)
        for (int i = 0; i < count; i++) {
            double took = each(made[i].call, times);
            made[i].least = took < made[i].least ? took : made[i].least;
        }
}

/* Prints the nanoseconds of the quickest of the plain, or of the careful loaders, and gives its compiler. */
static const char *print_quickest(const struct timed *made, int count, int is_careful)
{
    const struct timed *quickest = NULL;
    for (int i = 1; i < count; i++)
        if (made[i].is_careful == is_careful && (!quickest || made[i].least < quickest->least))
            quickest = made + i;
    if (quickest)
        printf("\t%.1f", quickest->least);
    else
        printf("\t-");
    return quickest ? quickest->compiler : "-";
}

static int measure(const char *file, const char *name, int call, int rounds)
{
    struct timed made[MOST_MAKERS];
    int count = gather(call, made);
    int same = compare(call, made, count);
    time_all(made, count, rounds);
    printf("%s\t%s\t%.1f", file, name, made[0].least);
    const char *plain = print_quickest(made, count, 0);
    const char *careful = print_quickest(made, count, 1);
    printf("\t%s\t%s%s\n", plain, careful, same ? "" : "\t!");
    fflush(stdout);
    return same;
}

int main(int argc, char **argv)
{
    if (argc < 4 || compilers > (MOST_MAKERS - 1) / 2 || !take_file(argv[2]))
        return 2;
    const char *slash = strrchr(argv[2], '/');
    int same = 1;
    for (int i = 3; i < argc; i++) {
        int call = call_named(argv[i]);
        if (call == CALLS)
            return 2;
        if (takes_file(call))
            same &= measure(slash ? slash + 1 : argv[2], argv[i], call, atoi(argv[1]));
    }
    return !same;
}
