/* What hunkinfo asks of the system beside libc, on processors for which the kit has no C: it stands in for
 * args.pic.o and errno.pic.o of the kit's c/libos_c.a, which is for x86-64 alone. Trusted, as those are. */
#include <errno.h>
#include <stddef.h>
#include <stdint.h>

static int count;
static char **words;

__attribute__((constructor)) static void keep(int argc, char **argv)
{
    count = argc;
    words = argv;
}

/* Copies a word of the command line to the room, and answers its length: -1 where there is no such word, and
 * -2 where it is longer than the room. Numbers have 64 bits on every machine. */
int64_t rattle_arg(uint64_t number, unsigned char *room, uint64_t room_len)
{
    if (number >= (uint64_t)count || words[number] == NULL)
        return -1;
    uint64_t len = 0;
    for (; words[number][len] != 0; len++) {
        if (len == room_len)
            return -2;
        room[len] = (unsigned char)words[number][len];
    }
    return (int64_t)len;
}

int rattle_errno(void)
{
    return errno;
}

void rattle_set_errno(int number)
{
    errno = number;
}
