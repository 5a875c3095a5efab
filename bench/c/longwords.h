/* The longwords of hunk files, high byte first, and what their values are called. */
#ifndef LONGWORDS_H
#define LONGWORDS_H

#include <stddef.h>
#include <stdint.h>
#include <string.h>

/* A function that is compiled anew for each constant that it is called with. */
#define INLINED static inline __attribute__((always_inline))
/* One that is called, as it is seldom needed. */
#define OUTLINED static __attribute__((noinline, unused))
#define RARELY(truth) __builtin_expect(!!(truth), 0)

/* The kinds of blocks. */
enum {
    UNIT = 0x3E7,
    NAME,
    CODE,
    DATA,
    BSS,
    RELOC32,
    RELOC16,
    RELOC8,
    EXT,
    SYMBOL,
    DEBUG,
    END,
    HEADER,
    NO_KIND,
    OVERLAY,
    BREAK,
    DREL32,
    DREL16,
    DREL8,
    LIB,
    INDEX,
    RELOC32SHORT,
    RELRELOC32,
    ABSRELOC16
};

/* Of a block word, its kind, and the bit of a block that may be passed over. */
#define KIND UINT32_C(0x1FFFFFFF)
#define ADVISORY UINT32_C(0x20000000)
/* Of a size word, the longwords; of a symbol's or an entry's word, those of its name. */
#define SIZE UINT32_C(0x3FFFFFFF)
#define NAME_SIZE UINT32_C(0xFFFFFF)
#define MOST_HUNKS 65536
/* The longword at which the table of a header begins. */
#define TABLE_AT 5

INLINED uint32_t get(const uint8_t *bytes)
{
    uint32_t word;
    memcpy(&word, bytes, 4);
    return __builtin_bswap32(word);
}

INLINED void put(uint8_t *bytes, uint32_t word)
{
    word = __builtin_bswap32(word);
    memcpy(bytes, &word, 4);
}

/* The longword of this number. */
INLINED uint32_t long_at(const uint8_t *bytes, size_t at) { return get(bytes + 4 * at); }

/* How many longwords an entry of the table has, by its size word: two where it has attributes. */
INLINED size_t longs_of_entry(uint32_t word) { return word >> 30 == 3 ? 2 : 1; }

/* How many bytes an offset of such a block stands for; 0 of a block that is none of relocations. */
INLINED uint32_t width_of(uint32_t kind)
{
    switch (kind) {
    case RELOC32:
    case DREL32:
    case RELRELOC32:
        return 4;
    case RELOC16:
    case DREL16:
    case ABSRELOC16:
        return 2;
    case RELOC8:
    case DREL8:
        return 1;
    }
    return 0;
}

/* Of entries of an EXT block: definitions have a value, references have offsets, and those to
 * common blocks have both. */
INLINED int defines(uint32_t kind) { return kind <= 2; }
INLINED int refers(uint32_t kind) { return kind >= 129 && kind <= 139; }
INLINED int is_common(uint32_t kind) { return kind == 130 || kind == 137; }

/* How many bytes a reference of this kind stands for. */
INLINED uint32_t width_of_reference(uint32_t kind)
{
    static const uint8_t widths[] = {4, 4, 2, 1, 4, 2, 1, 4, 4, 2, 1};
    return widths[kind - 129];
}

/* How many bytes of a name come before its first zero byte. */
INLINED uint64_t text_length(const uint8_t *bytes, uint64_t len)
{
    if (len > 16) {
        const uint8_t *zero = memchr(bytes, 0, len);
        return zero ? (uint64_t)(zero - bytes) : len;
    }
    for (uint64_t at = 0; at < len; at += 4) {
        uint32_t four;
        memcpy(&four, bytes + at, 4);
        /* a bit for each zero byte; only those above the first may be wrong */
        uint32_t zeros = (four - UINT32_C(0x01010101)) & ~four & UINT32_C(0x80808080);
        if (zeros)
            return at + (uint64_t)(__builtin_ctz(zeros) >> 3);
    }
    return len;
}

#endif
