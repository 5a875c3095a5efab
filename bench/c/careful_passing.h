/* The blocks of a file that is accepted, which are passed over without a test. */
#ifndef CAREFUL_PASSING_H
#define CAREFUL_PASSING_H

#include "careful_walk.h"

/* What an object file begins with, or a load file after its table. */
INLINED size_t first_block(const struct walk *walk) { return walk->hunks ? walk->after_table : 0; }

/* The longword after what begins at this one. */

INLINED size_t after_counted(const uint8_t *bytes, size_t at) { return at + 1 + (size_t)long_at(bytes, at); }

INLINED size_t after_symbols(const uint8_t *bytes, size_t at)
{
    for (uint32_t word; (word = long_at(bytes, at++));)
        at += (size_t)(word & NAME_SIZE) + 1;
    return at;
}

INLINED size_t after_groups(const uint8_t *bytes, size_t at)
{
    for (uint32_t count; (count = long_at(bytes, at++));)
        at += (size_t)count + 1;
    return at;
}

INLINED size_t after_entries(const uint8_t *bytes, size_t at)
{
    for (uint32_t word; (word = long_at(bytes, at++));) {
        uint32_t kind = word >> 24;
        at += word & NAME_SIZE;
        if (defines(kind))
            at++;
        else
            at = after_counted(bytes, is_common(kind) ? at + 1 : at);
    }
    return at;
}

/* After a block of this kind, whose word was read. */
INLINED size_t after_block(const uint8_t *bytes, size_t at, uint32_t kind)
{
    switch (kind) {
    case CODE:
    case DATA:
        return at + 1 + (long_at(bytes, at) & SIZE);
    case BSS:
        return at + 1;
    case END:
        return at;
    case SYMBOL:
        return after_symbols(bytes, at);
    case EXT:
        return after_entries(bytes, at);
    }
    return width_of(kind) ? after_groups(bytes, at) : after_counted(bytes, at);
}

#endif
