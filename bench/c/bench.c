/* One call on a file: bench CALL FILE. CALL is the name of one of calls.c, or `hand-` and its name for the plain
 * loader. The call is made in `work`, which a profiler counts. It prints a sum over the bytes that the call has left in
 * memory. */
#include "calls.h"
#include <stdio.h>
#include <string.h>

__attribute__((noinline)) static struct hunk_answer work(maker *call) { return call(); }

static uint64_t sum(const uint8_t *bytes, uint64_t len)
{
    uint64_t sum = UINT64_C(1469598103934665603);
    for (uint64_t i = 0; i < len; i++)
        sum = (sum ^ bytes[i]) * UINT64_C(1099511628211);
    return sum;
}

int main(int argc, char **argv)
{
    if (argc != 3 || !take_file(argv[2]))
        return 2;
    int by_hand = !strncmp(argv[1], "hand-", 5);
    int call = call_named(argv[1] + (by_hand ? 5 : 0));
    maker *made = call == CALLS ? NULL : by_hand ? plain_calls[call] : library_calls[call];
    if (!made)
        return 2;
    struct hunk_answer answer = work(made);
    uint64_t len;
    const uint8_t *written = written_by(call, answer, &len);
    printf("%llx\n", (unsigned long long)sum(written, len));
    return 0;
}
