/* Writes a file that is given as hexadecimal digits, and damaged copies of it:
 * damage whole|all NAME < TEXT, into the files NAME, NAME.0000, NAME.0001 and so on.
 *
 * A copy for each front of it, and for each of its longwords 14 with that one changed: by a bit in
 * each byte, and to 0, to all ones, and to longwords that mean something in such files. */
#include <ctype.h>
#include <stdint.h>
#include <stdio.h>
#include <string.h>

static uint8_t bytes[1 << 16], copy[1 << 16];

/* The bytes of the digits on standard input; all else is passed over. */
static size_t read_text(void)
{
    static const char digits[] = "0123456789abcdef";
    size_t len = 0;
    int c, high = -1;
    while ((c = getchar()) != EOF && len < sizeof bytes) {
        const char *at = c == 0 ? NULL : strchr(digits, tolower(c));
        if (at == NULL)
            continue;
        if (high >= 0)
            bytes[len++] = (uint8_t)(16 * high + (at - digits));
        high = high >= 0 ? -1 : (int)(at - digits);
    }
    return len;
}

static int put(const char *name, size_t len)
{
    FILE *f = fopen(name, "wb");
    if (f == NULL)
        return 0;
    size_t put = fwrite(copy, 1, len, f);
    return fclose(f) == 0 && put == len;
}

static int put_next(const char *name, size_t len)
{
    static int number;
    char numbered[512];
    snprintf(numbered, sizeof numbered, "%s.%04d", name, number++);
    return put(numbered, len);
}

static int put_changed(const char *name, size_t len, size_t at)
{
    static const uint32_t words[] = {0,     1,     2,     0xFFFFFFFF, 0x3E9,
                                     0x3EB, 0x3EC, 0x3F2, 0x3F3,      0xC0000001};
    int ok = 1;
    for (size_t i = 0; i < 4; i++) {
        copy[at + i] ^= 1;
        ok &= put_next(name, len);
        copy[at + i] ^= 1;
    }
    for (size_t w = 0; w < sizeof words / sizeof *words; w++) {
        for (int i = 0; i < 4; i++)
            copy[at + i] = (uint8_t)(words[w] >> (24 - 8 * i));
        ok &= put_next(name, len);
    }
    memcpy(copy + at, bytes + at, 4);
    return ok;
}

int main(int argc, char **argv)
{
    if (argc != 3)
        return 2;
    size_t len = read_text();
    memcpy(copy, bytes, len);
    int ok = put(argv[2], len);
    if (strcmp(argv[1], "all") == 0) {
        for (size_t cut = 0; cut < len; cut++)
            ok &= put_next(argv[2], cut);
        for (size_t at = 0; at + 4 <= len; at += 4)
            ok &= put_changed(argv[2], len, at);
    }
    return !ok;
}
