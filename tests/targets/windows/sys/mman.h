/* What the tests of tests/c ask of the pages of memory, for Windows. */
#ifndef MMAN_H
#define MMAN_H

#define WIN32_LEAN_AND_MEAN
#include <windows.h>

#define PROT_NONE PAGE_NOACCESS
#define PROT_READ PAGE_READONLY
#define PROT_WRITE PAGE_READWRITE
#define MAP_PRIVATE 0
#define MAP_ANONYMOUS 0
#define MAP_FAILED NULL

/* Pages that may be written, which is all that the tests ask for. */
static inline void *mmap(void *at, size_t len, int may, int how, int fd, long long from)
{
    (void)may, (void)how, (void)fd, (void)from;
    return VirtualAlloc(at, len, MEM_RESERVE | MEM_COMMIT, PAGE_READWRITE);
}

static inline int mprotect(void *at, size_t len, int may)
{
    DWORD old;
    return VirtualProtect(at, len, (DWORD)may, &old) ? 0 : -1;
}

#endif
