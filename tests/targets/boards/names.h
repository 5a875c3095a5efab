/* For a test on a board, whose input by semihosting does not end: the names come from the file
 * NAMES. newlib has no PRIu64 for C99. */
#include <inttypes.h>
#include <stdio.h>
#ifndef PRIu64
#define PRIu64 "llu"
#endif

static inline FILE *names_file(void)
{
    static FILE *file;
    if (file == NULL)
        file = fopen(NAMES, "r");
    return file;
}
#undef stdin
#define stdin names_file()
