/* What hunkinfo asks of the C library, where the program is compiled of a module that ports/retarget.py has written anew.
 * The module's numbers are those of x86-64: a length or an offset has 64 bits, also where the C library's has 32. Of a
 * number of 32 bits the rest of its register says nothing, where C has a say in it. So each function of that library is
 * asked here, with its name after `system_`. Trusted, as ports/os.c is. */
#define _GNU_SOURCE
#define _FILE_OFFSET_BITS 64
#include <errno.h>
#include <fcntl.h>
#include <signal.h>
#include <stdarg.h>
#include <stdint.h>
#include <stdlib.h>
#include <string.h>
#include <sys/stat.h>
#include <unistd.h>

/* A register, of which the lower 32 bits are the number. */
typedef long number;

/* The numbers that the kit's crate libc has for x86-64 are those of this machine. */
_Static_assert(O_RDONLY == 0 && O_WRONLY == 1 && O_RDWR == 2 && O_CREAT == 0100 && O_EXCL == 0200, "as on x86-64");
_Static_assert(O_TRUNC == 01000 && O_APPEND == 02000 && O_NONBLOCK == 04000 && O_CLOEXEC == 02000000, "as on x86-64");
_Static_assert(SEEK_SET == 0 && SEEK_CUR == 1 && SEEK_END == 2 && AT_EMPTY_PATH == 0x1000, "as on x86-64");
_Static_assert(EINTR == 4 && ENOMEM == 12 && ENAMETOOLONG == 36 && EILSEQ == 84 && ESTALE == 116, "as on x86-64");
_Static_assert(SIGPIPE == 13 && sizeof(off_t) == 8 && sizeof(struct statx) == 256, "as on x86-64");

/* The function of this name by which the C library tells of an error in POSIX's way. */
int __xpg_strerror_r(int, char *, size_t);

/* How much is read or written at a time. */
static size_t at_most(uint64_t len)
{
    return len > 1 << 30 ? 1 << 30 : (size_t)len;
}

int system_open(const char *path, number flags, ...)
{
    if (!((int)flags & O_CREAT))
        return open(path, (int)flags);
    va_list rest;
    va_start(rest, flags);
    mode_t mode = (mode_t)va_arg(rest, number);
    va_end(rest);
    return open(path, (int)flags, mode);
}

int system_close(number file)
{
    return close((int)file);
}

int64_t system_read(number file, void *room, uint64_t len)
{
    return read((int)file, room, at_most(len));
}

int64_t system_write(number file, const void *bytes, uint64_t len)
{
    return write((int)file, bytes, at_most(len));
}

int64_t system_lseek(number file, int64_t to, number from)
{
    return lseek((int)file, to, (int)from);
}

int system_isatty(number file)
{
    return isatty((int)file);
}

int system_fsync(number file)
{
    return fsync((int)file);
}

int system_statx(number file, const char *path, number flags, number mask, struct statx *found)
{
    return statx((int)file, path, (int)flags, (unsigned)mask, found);
}

int system___xpg_strerror_r(number error, char *room, uint64_t len)
{
    return __xpg_strerror_r((int)error, room, at_most(len));
}

/* The handler is one of the numbers SIG_DFL and SIG_IGN, and so is the answer. */
int64_t system___sysv_signal(number which, int64_t handler)
{
    return (intptr_t)signal((int)which, (sighandler_t)(intptr_t)handler);
}

/* Where the length has more bits than a size there is no memory. */
void *system_malloc(uint64_t len)
{
    return (size_t)len == len ? malloc((size_t)len) : NULL;
}

void *system_realloc(void *place, uint64_t len)
{
    return (size_t)len == len ? realloc(place, (size_t)len) : NULL;
}

void system_free(void *place)
{
    free(place);
}
