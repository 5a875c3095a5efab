/* Of this header of a system what tests/c/guarded.h uses, for boards that have none: plain memory,
 * after which no page faults. */
#ifndef MMAN_H
#define MMAN_H

#include <stdint.h>
#include <stdlib.h>

#define PROT_NONE 0
#define PROT_READ 1
#define PROT_WRITE 2
#define MAP_PRIVATE 2
#define MAP_ANONYMOUS 32
#define MAP_FAILED ((void *)-1)

static inline void *mmap(void *at, size_t len, int allowed, int flags, int file, long from)
{
    (void)at, (void)allowed, (void)flags, (void)file, (void)from;
    uint8_t *made = malloc(len + 16);
    return made == NULL ? MAP_FAILED : made + (16 - (uintptr_t)made % 16);
}

static inline int mprotect(void *at, size_t len, int allowed)
{
    (void)at, (void)len, (void)allowed;
    return 0;
}

#endif
