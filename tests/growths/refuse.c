/*
 * Refuses a program its memory: the growth whose number REFUSE gives, counted from 1. Where COUNT names a file, the
 * number of growths, the bytes that were asked for, and those of the largest growth are written to it at the end. A
 * reallocation that fits in what was given is no growth. Made for the GNU C library, by `cc -shared -fPIC`, and put before
 * a program by LD_PRELOAD.
 */
#define _GNU_SOURCE
#include <dlfcn.h>
#include <errno.h>
#include <fcntl.h>
#include <malloc.h>
#include <stdio.h>
#include <stdlib.h>
#include <unistd.h>

static void *(*give)(size_t);
static void *(*give_again)(void *, size_t);
static long count, bytes, largest, refused;

static void begin(void)
{
    const char *number;

    if (give)
        return;
    give = dlsym(RTLD_NEXT, "malloc");
    give_again = dlsym(RTLD_NEXT, "realloc");
    number = getenv("REFUSE");
    refused = number ? atol(number) : 0;
}

static int is_refused(size_t size)
{
    begin();
    count++;
    bytes += size;
    if (largest < (long)size)
        largest = size;
    if (count != refused)
        return 0;
    errno = ENOMEM;
    return 1;
}

void *malloc(size_t size)
{
    return is_refused(size) ? 0 : give(size);
}

void *realloc(void *old, size_t size)
{
    begin();
    if (old && size <= malloc_usable_size(old))
        return give_again(old, size);
    return is_refused(size) ? 0 : give_again(old, size);
}

__attribute__((destructor)) static void end(void)
{
    char text[64];
    const char *path = getenv("COUNT");
    int length, file;

    if (!path)
        return;
    length = snprintf(text, sizeof text, "%ld %ld %ld\n", count, bytes, largest);
    file = open(path, O_WRONLY | O_CREAT | O_TRUNC, 0666);
    if (file < 0 || write(file, text, length) != length)
        _exit(99);
}
