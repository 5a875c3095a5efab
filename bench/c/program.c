/* What a program in plain C takes for the commands of hunkinfo: program COMMAND FILE [OUT]. It reads the file whole, tests it in
 * one walk, and prints what hunkinfo does, from a page of 64 KiB. The commands are show, validate, relocate (packed from 21000),
 * rewrite and strip, and hex: validate of hexadecimal text. It knows the blocks of valid files alone. */
#include "hand.h"
#include <fcntl.h>
#include <stdio.h>
#include <stdlib.h>
#include <string.h>
#include <sys/stat.h>
#include <unistd.h>

#define PAGE 65536
/* The longest piece that is put without a look at the page. */
#define LONGEST 256
#define BASE UINT32_C(0x21000)

static char page[PAGE + LONGEST];
static size_t filled;
/* The two digits of each byte. */
static char digits[256][2];

static uint32_t be(const uint8_t *p)
{
    uint32_t v;
    memcpy(&v, p, 4);
    return __builtin_bswap32(v);
}

/* ---- what is printed */

static void write_all(int out, const void *from, size_t len)
{
    for (const char *at = from; len;) {
        ssize_t n = write(out, at, len);
        if (n <= 0)
            _exit(3);
        at += n;
        len -= (size_t)n;
    }
}

static void flush(void)
{
    write_all(1, page, filled);
    filled = 0;
}

/* Room for a piece of LONGEST bytes. */
static inline void room(void)
{
    if (filled > PAGE)
        flush();
}

static inline void put(const char *text, size_t len)
{
    memcpy(page + filled, text, len);
    filled += len;
}

static inline void put_text(const char *text) { put(text, strlen(text)); }

static inline void put_number(uint64_t number)
{
    char text[20];
    int at = 20;
    do
        text[--at] = (char)('0' + number % 10);
    while (number /= 10);
    put(text + at, (size_t)(20 - at));
}

static inline void put_hex(uint32_t number)
{
    for (int shift = 24; shift >= 0; shift -= 8)
        put(digits[number >> shift & 0xFF], 2);
}

/* A name, up to its first zero byte. */
static void put_name(const uint8_t *name, size_t len)
{
    for (size_t i = 0; i < len && name[i]; i++) {
        room();
        if (name[i] < 0x20 || name[i] > 0x7E || name[i] == '\\') {
            put_text("\\x");
            put(digits[name[i]], 2);
        } else {
            page[filled++] = (char)name[i];
        }
    }
}

/* ---- show */

static const char *name_of(uint32_t kind)
{
    static const char *const names[] = {"UNIT",    "NAME",   "CODE", "DATA",   "BSS",   "RELOC32",
                                        "RELOC16", "RELOC8", "EXT",  "SYMBOL", "DEBUG", "END"};
    return kind - 0x3E7 < 12 ? names[kind - 0x3E7] : "ADVISORY";
}

static size_t show_symbols(const uint8_t *b, size_t at)
{
    uint32_t count = 0, longs;
    for (size_t p = at; (longs = be(b + p)); count++)
        p += 8 + 4 * (size_t)(longs & 0xFFFFFF);
    put_text(" ");
    put_number(count);
    put_text("\n");
    for (; (longs = be(b + at) & 0xFFFFFF); at += 8 + 4 * (size_t)longs) {
        room();
        put_text("    0x");
        put_hex(be(b + at + 4 + 4 * (size_t)longs));
        put_text(" ");
        put_name(b + at + 4, 4 * (size_t)longs);
        put_text("\n");
    }
    return at + 4;
}

static size_t show_groups(const uint8_t *b, size_t at)
{
    uint64_t total = 0;
    uint32_t count;
    for (size_t p = at; (count = be(b + p)); p += 8 + 4 * (size_t)count)
        total += count;
    put_text(" ");
    put_number(total);
    put_text("\n");
    for (; (count = be(b + at)); at += 4 * (size_t)count) {
        char front[24];
        size_t len = (size_t)snprintf(front, sizeof front, "    %u 0x", be(b + at + 4));
        at += 8;
        for (uint32_t i = 0; i < count; i++) {
            room();
            put(front, len);
            put_hex(be(b + at + 4 * (size_t)i));
            page[filled++] = '\n';
        }
    }
    return at + 4;
}

/* The byte after the entry that stands here: a definition, or a reference with its offsets. */
static size_t after_entry(const uint8_t *b, size_t at)
{
    uint32_t word = be(b + at);
    size_t end = at + 8 + 4 * (size_t)(word & 0xFFFFFF);
    return word >> 31 ? end + 4 * (size_t)be(b + end - 4) : end;
}

static void show_entry(const uint8_t *b, size_t at)
{
    uint32_t word = be(b + at);
    size_t name = 4 * (size_t)(word & 0xFFFFFF);
    uint32_t value = be(b + at + 4 + name);
    room();
    if (word >> 31) {
        put_text("    REF32 ");
        put_number(value);
    } else {
        put_text(word >> 24 == 1 ? "    DEF 0x" : "    ABS 0x");
        put_hex(value);
    }
    put_text(" ");
    put_name(b + at + 4, name);
    put_text("\n");
    for (size_t i = at + 8 + name, end = after_entry(b, at); i < end; i += 4) {
        room();
        put_text("      0x");
        put_hex(be(b + i));
        put_text("\n");
    }
}

static size_t show_entries(const uint8_t *b, size_t at)
{
    uint32_t count = 0;
    for (size_t p = at; be(b + p); p = after_entry(b, p))
        count++;
    put_text(" ");
    put_number(count);
    put_text("\n");
    for (; be(b + at); at = after_entry(b, at))
        show_entry(b, at);
    return at + 4;
}

/* The blocks of a hunk from this byte on: the byte after its END. */
static size_t show_blocks(const uint8_t *b, size_t at)
{
    for (;;) {
        room();
        uint32_t kind = be(b + at) & 0x1FFFFFFF;
        at += 4;
        put_text("  ");
        put_text(name_of(kind));
        if (kind == 0x3F2) {
            put_text("\n");
            return at;
        }
        if (kind == 0x3F0) {
            at = show_symbols(b, at);
        } else if (kind == 0x3EC) {
            at = show_groups(b, at);
        } else if (kind == 0x3EF) {
            at = show_entries(b, at);
        } else {
            uint64_t bytes = 4 * (uint64_t)(be(b + at) & 0x3FFFFFFF);
            at += 4 + (kind == 0x3EB ? 0 : bytes);
            put_text(" ");
            put_number(bytes);
            put_text(" bytes\n");
        }
    }
}

static void show_load_file(const uint8_t *b, const struct hand_answer *table, const struct hand_row *rows)
{
    size_t at = table->place;
    for (uint32_t i = 0; i < table->hunks; i++) {
        static const char *const memories[] = {" bytes any\n", " bytes chip\n", " bytes fast\n"};
        room();
        put_text("hunk ");
        put_number(i);
        put_text(" ");
        put_number(4 * (uint64_t)(rows[i].word & 0x3FFFFFFF));
        put_text(memories[rows[i].memory % 3]);
        at = show_blocks(b, at);
    }
}

static void show_object_file(const uint8_t *b, size_t len)
{
    uint64_t unit = 0;
    for (size_t at = 0; at < len; unit++) {
        size_t name = 4 * (size_t)be(b + at + 4);
        room();
        put_text("unit ");
        put_number(unit);
        put_text(" ");
        put_name(b + at + 8, name);
        put_text("\n");
        at += 8 + name;
        for (uint32_t hunk = 0; at < len && be(b + at) != 0x3E7; hunk++) {
            room();
            put_text("hunk ");
            put_number(hunk);
            put_text(" ");
            put_number(4 * (uint64_t)(be(b + at + 4) & 0x3FFFFFFF));
            put_text(" bytes\n");
            at = show_blocks(b, at);
        }
    }
}

/* ---- the commands */

static int show(const uint8_t *b, size_t len, int is_object, int whole)
{
    struct hunk_finding *found = is_object && !whole ? malloc(len / 2 * sizeof *found) : NULL;
    struct hand_answer checked = hand_check(b, len, found, found ? len / 2 : 0);
    if (checked.err && checked.err != (int)HUNK_NO_ROOM)
        return 1;
    if (is_object) {
        for (size_t i = 0; !whole && i < checked.count; i++) {
            room();
            put_text("unit ");
            put_number(found[i].unit);
            put_text(" hunk ");
            put_number(found[i].hunk);
            put_text(" offset 0x");
            put_hex(found[i].offset);
            put_text(found[i].fault == 1 ? " BadTarget\n" : " OutsideHunk\n");
        }
        room();
        put_text("object file ");
        put_number(hand_items(HAND_UNITS, b, len, NULL, 0).count);
        put_text(" units");
        if (!whole) {
            put_text(" ");
            put_number(checked.count);
            put_text(" findings");
        }
        put_text("\n");
        if (whole)
            show_object_file(b, len);
        flush();
        return !whole && checked.count;
    }
    struct hand_row *rows = malloc(65536 * sizeof *rows);
    struct hand_answer table = hand_table(b, len, UINT64_MAX, rows, 65536);
    put_text("load file ");
    put_number(table.hunks);
    put_text(" hunks ");
    put_number(table.count);
    put_text(" bytes\n");
    if (whole)
        show_load_file(b, &table, rows);
    flush();
    return 0;
}

static int relocate(const uint8_t *b, size_t len)
{
    struct hand_row *rows = malloc(65536 * sizeof *rows);
    struct hand_answer table = hand_table(b, len, UINT32_MAX, rows, 65536);
    uint8_t *memory = table.err ? NULL : malloc(table.count + 1);
    if (!memory || hand_load(b, len, BASE, memory, table.count).err)
        return 1;
    uint32_t base = BASE;
    for (uint32_t i = 0; i < table.hunks; base += rows[i++].bytes) {
        room();
        put_text("hunk ");
        put_number(i);
        put_text(" base 0x");
        put_hex(base);
        put_text(" ");
        put_number(rows[i].bytes);
        put_text(" bytes\n");
        for (size_t left = rows[i].bytes; left;) {
            size_t n = left < 16 ? left : 16;
            room();
            put_text("  ");
            for (size_t j = 0; j < n; j++)
                put(digits[memory[j]], 2);
            page[filled++] = '\n';
            memory += n;
            left -= n;
        }
    }
    flush();
    return 0;
}

static int rewrite(const uint8_t *b, size_t len, const char *out, int strips)
{
    uint8_t *kept = strips ? malloc(len + 1) : NULL;
    struct hand_answer answer = strips ? hand_strip(b, len, kept, len) : hand_check(b, len, NULL, 0);
    int accepted = !answer.err || answer.err == (int)HUNK_NO_ROOM;
    int file = accepted ? open(out, O_WRONLY | O_CREAT | O_TRUNC, 0666) : -1;
    if (file < 0)
        return 1;
    size_t bytes = strips ? answer.count : answer.place;
    write_all(file, strips ? kept : b, bytes);
    printf("wrote %zu bytes\n", bytes);
    return 0;
}

/* The bytes that hexadecimal text spells, in its place: how many, or 0 where it spells none. */
static size_t unhex(uint8_t *b, size_t len)
{
    size_t count = 0;
    int high = -1;
    for (size_t i = 0; i < len; i++) {
        int c = b[i], value;
        if (c >= '0' && c <= '9')
            value = c - '0';
        else if (c >= 'a' && c <= 'f')
            value = c - 'a' + 10;
        else if (c >= 'A' && c <= 'F')
            value = c - 'A' + 10;
        else if (c == ' ' || c == '\t' || c == '\r' || c == '\n')
            continue;
        else
            return 0;
        if (high < 0) {
            high = value;
        } else {
            b[count++] = (uint8_t)(high << 4 | value);
            high = -1;
        }
    }
    return high < 0 ? count : 0;
}

static uint8_t *read_file(const char *name, size_t *len)
{
    struct stat status;
    int file = open(name, O_RDONLY);
    if (file < 0 || fstat(file, &status))
        return NULL;
    *len = (size_t)status.st_size;
    uint8_t *b = malloc(*len + 1);
    size_t done = 0;
    for (ssize_t n; done < *len && (n = read(file, b + done, *len - done)) > 0;)
        done += (size_t)n;
    return done == *len ? b : NULL;
}

int main(int argc, char **argv)
{
    size_t len;
    uint8_t *b = argc > 2 ? read_file(argv[2], &len) : NULL;
    if (b && !strcmp(argv[1], "hex"))
        len = unhex(b, len);
    if (!b || len < 4)
        return 3;
    for (int i = 0; i < 256; i++) {
        digits[i][0] = "0123456789abcdef"[i >> 4];
        digits[i][1] = "0123456789abcdef"[i & 15];
    }
    const char *command = argv[1];
    int is_object = be(b) == 0x3E7;
    if (!strcmp(command, "relocate"))
        return relocate(b, len);
    if (argc > 3)
        return rewrite(b, len, argv[3], !strcmp(command, "strip"));
    return show(b, len, is_object, !strcmp(command, "show"));
}
