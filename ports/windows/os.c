/* What hunkinfo asks of the system, on Windows: what the C library and the kit's c/libos_c.a answer
 * on Linux. Trusted, as those are.
 *
 * Names and words are UTF-8 on the side of the program, and UTF-16 on that of Windows. A number of
 * a file is its handle, which Windows keeps within 32 bits; 0, 1 and 2 are the standard streams.
 * Bytes stay as they are in both directions. */
#define UNICODE
#define WIN32_LEAN_AND_MEAN
#include <windows.h>
#include <shellapi.h>
#include <errno.h>
#include <stdint.h>
#include <string.h>

#define COUNT(array) (sizeof(array) / sizeof *(array))
#define SHARED (FILE_SHARE_READ | FILE_SHARE_WRITE | FILE_SHARE_DELETE)
/* The longest path of the program, with its zero. */
#define PATH_LEN 4096
/* Linux's flags of a file that is read, and of one that is made or emptied, and written. */
#define TO_READ 02000400
#define TO_OVERWRITE 02001501

/* The errors that Linux has, too, by its numbers, which the program knows. Those of errno.h are the
 * same there. */
#define LONG_NAME 36
static const struct {
    int number;
    DWORD windows;
    const char *text;
} errors[] = {
    {ENOENT, ERROR_FILE_NOT_FOUND, "No such file or directory"},
    {ENOENT, ERROR_PATH_NOT_FOUND, "No such file or directory"},
    {EBADF, ERROR_INVALID_HANDLE, "Bad file descriptor"},
    {ENOMEM, ERROR_NOT_ENOUGH_MEMORY, "Cannot allocate memory"},
    {EACCES, ERROR_ACCESS_DENIED, "Permission denied"},
    {EISDIR, NO_ERROR, "Is a directory"},
    {EINVAL, NO_ERROR, "Invalid argument"},
    {ENOSPC, ERROR_DISK_FULL, "No space left on device"},
    {ESPIPE, NO_ERROR, "Illegal seek"},
    {EROFS, ERROR_WRITE_PROTECT, "Read-only file system"},
    {EPIPE, ERROR_BROKEN_PIPE, "Broken pipe"},
    {EPIPE, ERROR_NO_DATA, "Broken pipe"},
    {EPIPE, ERROR_PIPE_NOT_CONNECTED, "Broken pipe"},
    {LONG_NAME, ERROR_FILENAME_EXCED_RANGE, "File name too long"},
};
/* Any other error has Windows's number and this. */
#define OF_WINDOWS 100000

static int last;

int rattle_errno(void)
{
    return last;
}

void rattle_set_errno(int number)
{
    last = number;
}

static int fails(int number)
{
    last = number;
    return -1;
}

/* What the last call of Windows has failed with. */
static int failed(void)
{
    DWORD error = GetLastError();
    for (size_t i = 0; i < COUNT(errors); i++)
        if (errors[i].windows == error)
            return fails(errors[i].number);
    return fails(OF_WINDOWS + (int)error);
}

/* The text of an error, in ASCII. */
int __xpg_strerror_r(int number, char *room, int64_t room_len)
{
    for (size_t i = 0; i < COUNT(errors); i++)
        if (errors[i].number == number) {
            lstrcpynA(room, errors[i].text, (int)room_len);
            return 0;
        }
    DWORD how = FORMAT_MESSAGE_FROM_SYSTEM | FORMAT_MESSAGE_IGNORE_INSERTS |
                FORMAT_MESSAGE_MAX_WIDTH_MASK;
    DWORD english = MAKELANGID(LANG_ENGLISH, SUBLANG_ENGLISH_US);
    DWORD len = FormatMessageA(how, NULL, (DWORD)(number - OF_WINDOWS), english, room,
                               (DWORD)room_len, NULL);
    if (len == 0)
        lstrcpynA(room, "an error of Windows", (int)room_len);
    for (; len > 0 && (room[len - 1] == ' ' || room[len - 1] == '.'); len--)
        room[len - 1] = 0;
    return 0;
}

/* Puts a word of the command line into the room, and answers its length: -1 where there is no such
 * word, and -2 where it is longer than the room. One that is no Unicode becomes a byte that is no
 * UTF-8, which the program refuses. */
int64_t rattle_arg(int64_t number, char *room, int64_t room_len)
{
    static int count;
    static wchar_t **words;
    if (words == NULL)
        words = CommandLineToArgvW(GetCommandLineW(), &count);
    if (words != NULL && number >= count)
        return -1;
    if (room_len == 0)
        return -2;
    const wchar_t *word = number == 0 ? L"hunkinfo" : words != NULL ? words[number] : L"\xD800";
    int len = WideCharToMultiByte(CP_UTF8, WC_ERR_INVALID_CHARS, word, -1, room, (int)room_len,
                                  NULL, NULL);
    if (len > 0)
        return len - 1;
    if (GetLastError() == ERROR_INSUFFICIENT_BUFFER)
        return -2;
    room[0] = '\xFF';
    return 1;
}

static int widen(const char *path, wchar_t *name)
{
    return MultiByteToWideChar(CP_UTF8, MB_ERR_INVALID_CHARS, path, -1, name, PATH_LEN);
}

static HANDLE file_of(int fd)
{
    return fd < 3 ? GetStdHandle(STD_INPUT_HANDLE - (DWORD)fd) : (HANDLE)(intptr_t)fd;
}

int open(const char *path, int flags, ...)
{
    wchar_t name[PATH_LEN];
    if (flags != TO_READ && flags != TO_OVERWRITE)
        return fails(EINVAL);
    if (!widen(path, name))
        return failed();
    DWORD access = flags == TO_READ ? GENERIC_READ : GENERIC_WRITE;
    DWORD made = flags == TO_READ ? OPEN_EXISTING : CREATE_ALWAYS;
    HANDLE file = CreateFileW(name, access, SHARED, NULL, made, FILE_ATTRIBUTE_NORMAL, NULL);
    if (file != INVALID_HANDLE_VALUE)
        return (int)(intptr_t)file;
    failed();
    DWORD is = GetFileAttributesW(name);
    if (last == EACCES && is != INVALID_FILE_ATTRIBUTES && is & FILE_ATTRIBUTE_DIRECTORY)
        last = EISDIR;
    return -1;
}

int close(int fd)
{
    return CloseHandle(file_of(fd)) ? 0 : failed();
}

static DWORD at_most(int64_t len, DWORD most)
{
    return len > most ? most : (DWORD)len;
}

/* A pipe whose other end is closed is at its end. */
int64_t read(int fd, void *room, int64_t len)
{
    DWORD moved = 0;
    if (ReadFile(file_of(fd), room, at_most(len, 1 << 30), &moved, NULL))
        return moved;
    return GetLastError() == ERROR_BROKEN_PIPE ? 0 : failed();
}

/* A console takes UTF-16, as what it makes of bytes depends on its settings. */
static int64_t show(HANDLE console, const char *text, int64_t text_len)
{
    wchar_t wide[PATH_LEN];
    DWORD shown, len = at_most(text_len, PATH_LEN);
    while (len < text_len && len > 1 && (text[len] & 0xC0) == 0x80)
        len--;
    int count = MultiByteToWideChar(CP_UTF8, 0, text, (int)len, wide, PATH_LEN);
    return WriteConsoleW(console, wide, (DWORD)count, &shown, NULL) ? (int64_t)len : failed();
}

int64_t write(int fd, const void *bytes, int64_t len)
{
    DWORD moved = 0, mode;
    HANDLE file = file_of(fd);
    if (GetConsoleMode(file, &mode))
        return show(file, bytes, len);
    return WriteFile(file, bytes, at_most(len, 1 << 30), &moved, NULL) ? (int64_t)moved : failed();
}

/* Whether a person types there. */
int isatty(int fd)
{
    DWORD mode;
    return GetConsoleMode(file_of(fd), &mode) != 0;
}

int64_t lseek(int fd, int64_t to, int from)
{
    LARGE_INTEGER asked = {.QuadPart = to}, at;
    HANDLE file = file_of(fd);
    if (GetFileType(file) != FILE_TYPE_DISK)
        return fails(ESPIPE);
    return SetFilePointerEx(file, asked, &at, (DWORD)from) ? at.QuadPart : failed();
}

/* What is no file on a disk keeps nothing, which is no loss to the program. */
int fsync(int fd)
{
    HANDLE file = file_of(fd);
    if (GetFileType(file) != FILE_TYPE_DISK)
        return fails(EINVAL);
    return FlushFileBuffers(file) ? 0 : failed();
}

/* Of Linux's struct statx, what the program looks at: whether it is a file, and which. */
struct statx {
    unsigned char before[28];
    uint16_t mode;
    unsigned char between[2];
    uint64_t ino;
    unsigned char times[96];
    uint32_t dev_major;
    unsigned char after[116];
};

_Static_assert(sizeof(struct statx) == 256, "as on Linux");

/* Linux's names of the standard streams, by their numbers. */
static const char *const streams[] = {"/dev/stdin", "/dev/stdout", "/dev/stderr"};

/* A file's number and that of its volume tell whether two names are of one file. On ReFS, whose
 * numbers have 128 bits, two files may have the same 64. */
static int describe(HANDLE file, struct statx *found)
{
    BY_HANDLE_FILE_INFORMATION is;
    if (GetFileType(file) != FILE_TYPE_DISK)
        return 0;
    if (!GetFileInformationByHandle(file, &is))
        return failed();
    found->mode = is.dwFileAttributes & FILE_ATTRIBUTE_DIRECTORY ? 0040000 : 0100000;
    found->ino = (uint64_t)is.nFileIndexHigh << 32 | is.nFileIndexLow;
    found->dev_major = is.dwVolumeSerialNumber;
    return 0;
}

/* The program asks by names alone. /dev/stdin and its kin are its own streams. */
int statx(int fd, const char *path, int flags, int mask, struct statx *found)
{
    (void)fd, (void)flags, (void)mask;
    memset(found, 0, sizeof *found);
    for (int stream = 0; stream < (int)COUNT(streams); stream++)
        if (strcmp(path, streams[stream]) == 0)
            return describe(file_of(stream), found);
    wchar_t name[PATH_LEN];
    if (!widen(path, name))
        return failed();
    HANDLE file = CreateFileW(name, 0, SHARED, NULL, OPEN_EXISTING, FILE_FLAG_BACKUP_SEMANTICS,
                              NULL);
    if (file == INVALID_HANDLE_VALUE)
        return failed();
    int answer = describe(file, found);
    CloseHandle(file);
    return answer;
}

/* The program asks to be told of a broken pipe by an error alone, as always on Windows. */
int64_t __sysv_signal(int number, int64_t handler)
{
    (void)number, (void)handler;
    return 0;
}
