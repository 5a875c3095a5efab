/* Hunk files of AmigaDOS. The calls read the tables of load files, and load these, whole or piece
 * by piece. They check and strip load files and object files, and list what stands in them, also
 * before a fault. They name the reasons of refusals, and warn of what is suspicious in load files.
 *
 * Whatever the bytes are, each call gives one of the answers listed with it. docs/PROVED.md of the
 * source tree says what of this is proved. A call reads and writes only what its arguments point
 * to, asks for no memory, and keeps nothing between two calls. So threads may call at the same
 * time, as long as no call writes memory that another one uses. hunk_load_packed needs 6 KiB of
 * stack. Each other call needs less than 1 KiB, on Arm of 32 bits 1.25, and on Windows 1.5.
 *
 * On x86-64 the library wants a processor of x86-64-v2, with SSE4.2 and POPCNT: Intel's since 2009,
 * AMD's since 2011. It does not look: on an older one a call may end the program by an illegal
 * instruction. There `grep -m1 -o sse4_2 /proc/cpuinfo` prints nothing, and the library to link is
 * the one that `ports/build x86_64-v1` of the source tree makes.
 *
 * What the caller has to make sure of:
 * - Each pointer points to as many elements as its length says, aligned for their type. Where the
 *   length is 0 it may be NULL. Misaligned pointers are forbidden. Lengths have 64 bits on every
 *   machine: one above what the machine can address is forbidden, since nothing is so long.
 * - The memory that is written overlaps no other argument: overlaps are forbidden.
 *
 * As long as HUNK_ABI stays the same (libhunk.so.1), a program need not be compiled anew: structs
 * keep their size and the places of their fields, calls their arguments, and answers their numbers,
 * names and meaning. Calls may be added, and numbers above 33. A reserved field is written as 0 and
 * is not read. A later version may give it a meaning, where 0 means that all is as it was.
 */
#ifndef HUNK_H
#define HUNK_H

#include <stdint.h>

#ifdef __cplusplus
extern "C" {
#endif

/* The number of this interface, which a program is compiled for. */
#define HUNK_ABI UINT32_C(1)

/* The number of the interface that the library has. Where it is not HUNK_ABI, compile the program
 * anew; until then it must not call anything else. */
uint32_t hunk_abi(void);

/* The numbers of answers: 0, the number of a reason, HUNK_NO_ROOM or HUNK_STRANGE. No call answers
 * HUNK_ADVISORY, HUNK_FILE_LIMIT, HUNK_READ or HUNK_OUT_OF_MEMORY. */
#define HUNK_OK UINT32_C(0)
/* the first longword is not 3F3 */
#define HUNK_NOT_LOAD_FILE UINT32_C(1)
/* a load file is needed, and this is an object file: link it first */
#define HUNK_IS_OBJECT UINT32_C(2)
/* a library for a linker, with a LIB or INDEX block */
#define HUNK_LIBRARY UINT32_C(3)
/* the header names resident libraries, as for the first AmigaDOS */
#define HUNK_RESIDENT UINT32_C(4)
/* the header has a table of no hunks */
#define HUNK_NO_HUNKS UINT32_C(5)
/* the header has a table of more than 65,536 hunks */
#define HUNK_TOO_MANY_HUNKS UINT32_C(6)
/* the first hunk of the table is not 0 */
#define HUNK_FIRST_HUNK UINT32_C(7)
/* the last hunk is not the table size less 1, as in files with overlays */
#define HUNK_LAST_HUNK UINT32_C(8)
/* a block word has bits 30 and 31 both set */
#define HUNK_BOTH_BITS UINT32_C(9)
/* reserved: no answer has this number */
#define HUNK_ADVISORY UINT32_C(10)
/* an OVERLAY block, of a file with overlays */
#define HUNK_OVERLAY UINT32_C(11)
/* a BREAK block, of a file with overlays */
#define HUNK_BREAK UINT32_C(12)
/* a block of short relocations, whose offsets have 16 bits */
#define HUNK_SHORT_RELOC UINT32_C(13)
/* a block that only object files have: the file is only partly linked */
#define HUNK_NOT_IN_LOAD_FILE UINT32_C(14)
/* a HEADER or UNIT where none may stand, or a block before the first UNIT */
#define HUNK_MISPLACED UINT32_C(15)
/* a type of block that is not known, without the bit of advisory blocks */
#define HUNK_UNKNOWN_BLOCK UINT32_C(16)
/* a second CODE, DATA or BSS block in a hunk */
#define HUNK_SECOND_CONTENT UINT32_C(17)
/* a relocation or EXT block before the CODE, DATA or BSS block of its hunk */
#define HUNK_BEFORE_CONTENT UINT32_C(18)
/* a hunk ends without a CODE, DATA or BSS block */
#define HUNK_NO_CONTENT UINT32_C(19)
/* more content than the hunk is declared to have */
#define HUNK_CONTENT_TOO_LONG UINT32_C(20)
/* the top byte of the longword with the length of a name is not 0 */
#define HUNK_NAME_WORD UINT32_C(21)
/* a relocation in a hunk of 0 bytes */
#define HUNK_NOTHING_TO_RELOCATE UINT32_C(22)
/* the target of a relocation is no hunk of the file */
#define HUNK_BAD_TARGET UINT32_C(23)
/* a relocated longword runs past the end of its hunk */
#define HUNK_BAD_OFFSET UINT32_C(24)
/* an EXT entry of a type that is not known */
#define HUNK_EXT_KIND UINT32_C(25)
/* the input ends too soon */
#define HUNK_TRUNCATED UINT32_C(26)
/* the hunks declare more bytes than the budget allows */
#define HUNK_BUDGET UINT32_C(27)
/* as many bytes as may be read were read, and the file had not ended */
#define HUNK_FILE_LIMIT UINT32_C(28)
/* a hunk has no base, or would pass the address 2^32 */
#define HUNK_NO_BASE UINT32_C(29)
/* the input could not be read */
#define HUNK_READ UINT32_C(30)
/* memory was refused */
#define HUNK_OUT_OF_MEMORY UINT32_C(31)
/* the array of the caller has too few elements */
#define HUNK_NO_ROOM UINT32_C(32)
/* the numbers are none of a loader or of parts, or do not fit */
#define HUNK_STRANGE UINT32_C(33)

/* What a call answers: 24 bytes. On a machine of 32 bits a count of bytes may be above what the
 * machine can address: those that hunks declare, those of a plain spelling, those of a front with
 * what closes it, or those still to come. So may the bytes of rows, a count times the size of one.
 * A program compares such a number before it narrows it. */
struct hunk_answer {
    uint32_t number; /* HUNK_OK, the number of a reason, HUNK_NO_ROOM or HUNK_STRANGE */
    uint32_t hunk;   /* the hunks of a load file, or as the call says; else 0 */
    uint64_t place;  /* bytes that were read; of a refusal, the byte where it is, from 0 on */
    uint64_t count;  /* what the call counts (below): written, needed, or still to come; else 0 */
};

/* A row of the table of a load file: 16 bytes. */
struct hunk_row {
    uint32_t word;   /* the size word, as it stands in the header */
    uint32_t extra;  /* the memory attributes where memory is 3, else 0 */
    uint32_t bytes;  /* the bytes of the hunk in memory: 4 times the low 30 bits of the size word */
    uint32_t memory; /* bits 30 and 31 of the size word: 0 any, 1 chip, 2 fast, 3 by attributes */
};

/* What is wrong with an offset of an object file. */
#define HUNK_FINDING_BAD_TARGET UINT32_C(1)   /* a relocation's target is no hunk of the unit */
#define HUNK_FINDING_OUTSIDE_HUNK UINT32_C(2) /* the bytes there go past the end of the hunk */

/* Something that is wrong with an object file, and where: 40 bytes. */
struct hunk_finding {
    uint64_t place;    /* the byte of the file at which the offset stands */
    uint64_t unit;     /* the unit, counted from 0 */
    uint64_t hunk;     /* the hunk, counted from 0 in its unit */
    uint32_t offset;   /* the offset, in bytes from the start of the hunk */
    uint32_t fault;    /* HUNK_FINDING_BAD_TARGET or HUNK_FINDING_OUTSIDE_HUNK */
    uint64_t reserved; /* 0: room for what later versions may tell */
};

/* Reads the header that the bytes begin with, and writes a row for each hunk.
 *
 *   bytes   the file, or its first bytes: nothing after the header is read
 *   budget  the bytes that the hunks may have in memory together. Up to SIZE_MAX, count fits a
 *           size_t.
 *   rows    where the rows go: a table has 1 to 65,536 of them
 *
 * HUNK_OK       hunk: the hunks, as many as rows were written; place: the bytes of the header;
 *               count: the bytes that the hunks have in memory together.
 * HUNK_NO_ROOM  there are more hunks than rows. hunk: the rows that are needed; place and count as
 *               at HUNK_OK. With rows_len 0 this asks for the size of a table.
 * HUNK_TRUNCATED      the header goes on after the bytes. count: how many more it has at least, 1
 *                     or more: a program reads as many, and asks again; place: 4 times the number
 *                     of whole longwords.
 * HUNK_BUDGET         place: the size word with which the sum first passes the budget.
 * Else the first fault of the header, HUNK_NOT_LOAD_FILE to HUNK_LAST_HUNK.
 *
 * Rows after the table, and at any answer but HUNK_OK all rows, are as they were.
 */
struct hunk_answer hunk_table(const uint8_t *bytes, uint64_t bytes_len, uint64_t budget,
                              struct hunk_row *rows, uint64_t rows_len);

/* Loads the load file that the bytes begin with, each hunk for an address of its own.
 *
 *   bytes   the file, whole; other bytes may follow it
 *   bases   the address of each hunk, in their order; more than there are hunks may be given
 *   memory  where the hunks go, one right after the other: the content of each, zero bytes up to
 *           its declared size, and the bases added to its longs (modulo 2^32, high byte first)
 *
 * HUNK_OK       hunk: the hunks; place: the bytes of the file; count: the bytes that were written.
 * HUNK_NO_ROOM  the memory is too small. hunk: the hunks; place: the bytes of the header; count:
 *               the bytes that are needed.
 * HUNK_NO_BASE  hunk: the first that has no base; place: the bytes of the header.
 * Else the first fault of the bytes, HUNK_NOT_LOAD_FILE to HUNK_BAD_OFFSET or HUNK_TRUNCATED;
 * place: the byte of the longword that is refused, or where the first longword is missing.
 *
 * HUNK_NO_ROOM and HUNK_NO_BASE come before the body is looked at, HUNK_NO_ROOM first where both
 * apply. A file that fits, with a base for each hunk, is loaded. It is read to its end before the
 * first byte is written: memory after the hunks, and at any answer but HUNK_OK all memory, is as it
 * was.
 */
struct hunk_answer hunk_load(const uint8_t *bytes, uint64_t bytes_len, const uint32_t *bases,
                             uint64_t bases_len, uint8_t *memory, uint64_t memory_len);

/* The same for hunks one right after the other from the address `base` on, as they lie in the
 * memory: an emulator hands in its RAM from that address on.
 *
 * HUNK_NO_BASE where a hunk would pass the address 2^32, or begin there. All else is as hunk_load
 * does it.
 */
struct hunk_answer hunk_load_packed(const uint8_t *bytes, uint64_t bytes_len, uint32_t base,
                                    uint8_t *memory, uint64_t memory_len);

/* The same for hunks that lie apart in one memory, each at its own address: a machine with chip and
 * fast memory hands in what both lie in.
 *
 *   bases   the address of each hunk, in their order, at any byte; more than there are hunks may
 *           be given
 *   start   the address of the memory's first byte: hunk i is written from memory[bases[i] - start]
 *           on, as hunk_load writes it
 *
 * HUNK_OK       as hunk_load. count: the bytes that the hunks have together.
 * HUNK_NO_BASE  hunk: the first that has no base in the memory: it has none at all, or it would
 *               begin before the memory, or pass its end or the address 2^32. place: the bytes of
 *               the header.
 * Else as hunk_load, but never HUNK_NO_ROOM.
 *
 * HUNK_NO_BASE comes before the body is looked at. A file whose hunks all lie in the memory is
 * loaded. It is read to its end before the first byte is written: memory that no hunk has, and at
 * any answer but HUNK_OK all memory, is as it was. Whether hunks overlap is not checked: bytes that
 * two of them have are unspecified, and all others are as if they did not.
 *
 *   uint8_t ram[0x300];             (its first byte at 0x40000)
 *   uint32_t bases[] = {0x40200, 0x40010};
 *   hunk_load_at(file, len, bases, 2, 0x40000, ram, sizeof ram);
 *                                   (hunk 0 from ram[0x200] on, hunk 1 from ram[0x10] on)
 */
struct hunk_answer hunk_load_at(const uint8_t *bytes, uint64_t bytes_len, const uint32_t *bases,
                                uint64_t bases_len, uint32_t start, uint8_t *memory,
                                uint64_t memory_len);

/* ---- A load file that comes piece by piece, of which no copy is kept.
 *
 * hunk_table reads the header, which has to be in one piece, into the caller's rows. The four
 * calls below know the file by its places and by a loader. A loader is only numbers, which may be
 * copied and stored; they belong to one file, its places and its memory. hunk_begin sets them.
 * hunk_feed takes the bytes after the header in pieces of any size. hunk_want says how many bytes
 * are still to come, and hunk_end whether the file is whole.
 */

/* Where a hunk lies: 12 bytes. */
struct hunk_place {
    uint32_t word;  /* the size word and the attributes, as in the hunk's struct hunk_row */
    uint32_t extra;
    uint32_t base;  /* the address of its first byte */
};

/* Where a loader stands: 96 bytes, which a program only stores. Any numbers are safe here. Where
 * one of them is not as the comment beside it says, each call answers HUNK_STRANGE, as it does to
 * zero bytes. So does hunk_feed where they do not fit its places and its memory. Other numbers that
 * no loader can have may go undetected. "After the last" is after the last hunk of the file. */
struct hunk_loader {
    uint64_t start;        /* the byte of the memory where the open hunk begins, a multiple of 4;
                            * after the last, the bytes of all hunks */
    uint64_t fed;          /* the bytes of header and body that were taken, 2^64 - 1 at most; below
                            * that, pending is their remainder by 4. At least 20, and 4 more for
                            * each hunk of the file; after the last, 16 more for each */
    uint64_t place;        /* after a refusal, its byte, a multiple of 4; else 0 */
    uint32_t refused;      /* the number of its reason, HUNK_LIBRARY, or HUNK_BOTH_BITS to
                            * HUNK_BAD_OFFSET; 0 where there was none */
    uint32_t refused_hunk; /* the hunk of its answer: 0 */
    uint32_t hunk;         /* how many hunks are complete: the open one's number, from 0 */
    uint32_t hunks;        /* the hunks of the file, 65,536 at most: hunk + 1 + ahead; 0 after the
                            * last, where hunk has them */
    uint32_t ahead;        /* the hunks after the open one; 0 after the last */
    uint32_t has_content;  /* 1 where the open hunk has its content, as in phases 9 to 11; else 0,
                            * as in phases 1 and 5 to 7, and after the last */
    uint32_t phase;        /* what the next longword is for, 1 to 13; 14 after the last */
    uint32_t part;         /* the longwords of a content, below 2^30, in phase 7; the target of
                            * offsets, a hunk of the file, in phase 11; else 0 */
    uint32_t owed;         /* how many longwords of its kind follow the next: fewer than part in
                            * phase 7, fewer than 2^24 in phase 13, any in 8, 10 and 11; else 0 */
    uint8_t pending;       /* the bytes of the next longword that have come, 0 to 3; 0 after the
                            * last */
    uint8_t first;         /* and which */
    uint8_t second;
    uint8_t third;
    uint64_t reserved[4];  /* 0 */
};

/* Sets a loader to the end of the header of a file, and makes the memory zero.
 *
 *   places  one for each hunk, its word and extra as hunk_table wrote them, and its base, any
 *           address: whether hunks overlap or pass 2^32 is not checked
 *   header  the bytes of the header, as hunk_table answered them: its place
 *   memory  where the hunks go, one right after the other: just the bytes that they have together,
 *           hunk_table's count
 *
 * HUNK_OK       hunk: the hunks; place: the bytes of the header; count: the bytes of the memory.
 * HUNK_NO_ROOM  the memory is too small. hunk and place as at HUNK_OK; count: the bytes that are
 *               needed.
 * HUNK_STRANGE  no header of `header` bytes has these words and extras, or the memory is too large.
 *               hunk, place and count are 0.
 *
 * It writes the loader and the memory, and reads the places. At any answer but HUNK_OK the memory
 * is as it was, and the calls below answer HUNK_STRANGE to the loader.
 */
struct hunk_answer hunk_begin(struct hunk_loader *loader, const struct hunk_place *places,
                              uint64_t places_len, uint64_t header, uint8_t *memory,
                              uint64_t memory_len);

/* Takes the next bytes of a file, right after those that were taken before: the piece, or its front
 * up to the end of the file.
 *
 *   places, memory  those of hunk_begin, as they were left: a program may read the memory, and
 *                   change no byte of it
 *   bytes           the piece, of any length, 0 too
 *
 * HUNK_OK       count: the bytes that were taken, all of them unless the file is whole; place: the
 *               bytes of header and body so far, 2^64 - 1 at most; hunk: the hunks that are whole.
 *               The memory is as the longwords so far leave it.
 * HUNK_STRANGE  no loader with these places and this memory may have such numbers. One of them is
 *               not as the comment beside it says, there are not as many places as hunks, or the
 *               open hunk, or one that the piece opens, does not lie in the memory. hunk, place and
 *               count are 0. The loader is as it was; the memory may not be.
 * Else the first fault of the file, HUNK_LIBRARY, or HUNK_BOTH_BITS to HUNK_BAD_OFFSET; place: the
 * byte of the longword that is refused, from the start of the file, or 2^64 - 4 where that is more.
 * The contents of the memory are then unspecified. Each later call with this loader answers the
 * same, and leaves both as they are.
 *
 * It reads and writes the loader and the memory, and reads the places and the piece.
 */
struct hunk_answer hunk_feed(struct hunk_loader *loader, const struct hunk_place *places,
                             uint64_t places_len, uint8_t *memory, uint64_t memory_len,
                             const uint8_t *bytes, uint64_t bytes_len);

/* Says whether the file is whole. It reads the loader, and writes nothing; more may be fed later.
 *
 * HUNK_OK       the memory has the hunks, as hunk_load would load them at the bases of the places.
 *               hunk: the hunks; place: the bytes of the file; count: those of the hunks.
 * HUNK_TRUNCATED  more of the file is to come; place: where the first longword is missing, 4 times
 *                 the number of whole longwords so far.
 * HUNK_STRANGE  the loader's numbers are none that a loader may have.
 * Else the same as hunk_feed has answered, where it answered a fault.
 */
struct hunk_answer hunk_end(const struct hunk_loader *loader);

/* Says how many bytes of the file are still to come at least. It reads the loader, and writes
 * nothing.
 *
 * HUNK_OK       count: as many bytes may be asked of a pipe on which something else follows the
 *               file, 0 where the file is whole; place: the bytes of header and body so far,
 *               2^64 - 1 at most; hunk: the hunks that are whole.
 * HUNK_STRANGE  the loader's numbers are none that a loader may have.
 * Else the same as hunk_feed has answered, where it answered a fault.
 *
 * count has all that is known to come: the rest of a content, for instance, and the longwords that
 * the file has after it at least. A file of any size may declare a block of more than 2^32 bytes.
 * So on a machine of 32 bits count may be above what it can address, or ask of a pipe at once: a
 * program compares it with its own limit before it narrows it to a size_t.
 */
struct hunk_answer hunk_want(const struct hunk_loader *loader);

/* Checks the object file that the bytes are, or the load file that they begin with: bytes that
 * begin with 3E7 are read as an object file, all others as a load file.
 *
 *   bytes   the file, whole; other bytes may follow a load file
 *   rows    where the findings go: up to two for each offset of a relocation, and one for each of
 *           an external reference
 *
 * HUNK_OK       hunk: the hunks of a load file, 1 or more; 0 of an object file; place: the bytes of
 *               the file; count: the findings, as many as rows were written, in the order of the
 *               file. A load file has none: for an offset that is wrong it is refused.
 * HUNK_NO_ROOM  there are more findings than rows. count: the rows that are needed; hunk and place
 *               as at HUNK_OK. With rows_len 0 this asks for their number.
 * Else the first fault of the bytes, HUNK_NOT_LOAD_FILE to HUNK_TRUNCATED; place: the byte of the
 * longword that is refused, or where the first longword is missing.
 *
 * With enough rows, each file without a fault is checked. Rows after the findings, and at any
 * answer but HUNK_OK all rows, are as they were.
 */
struct hunk_answer hunk_check(const uint8_t *bytes, uint64_t bytes_len, struct hunk_finding *rows,
                              uint64_t rows_len);

/* ---- What stands in a file, item by item.
 *
 * Each call below takes the object file that the bytes are, or the load file that they begin with,
 * as hunk_check does, and writes a row for each item, in the order of the file. All of them answer
 * alike:
 *
 *   bytes   the file, whole; other bytes may follow a load file
 *   rows    where the rows go
 *
 * HUNK_OK       hunk: the hunks of a load file, 1 or more; 0 of an object file; place: the bytes of
 *               the file; count: the items, as many as rows were written.
 * HUNK_NO_ROOM  there are more items than rows. count: the rows that are needed; hunk and place as
 *               at HUNK_OK. With rows_len 0 this asks for their number.
 * Else the first fault of the bytes, as at hunk_check.
 *
 * With enough rows, the items of each file without a fault are listed. Rows after them, and at any
 * answer but HUNK_OK all rows, are as they were. It is quickest with a row for each four bytes of
 * the file: no file has more items, so they are not counted first.
 */

/* A unit of an object file: 40 bytes. */
struct hunk_unit {
    uint64_t place;
    uint64_t name;
    uint64_t name_bytes;
    uint64_t hunks;         /* the hunks that it has */
    uint64_t reserved;      /* 0 */
};

/* A row for each unit. A load file has none. */
struct hunk_answer hunk_units(const uint8_t *bytes, uint64_t bytes_len, struct hunk_unit *rows,
                              uint64_t rows_len);

/* A block of a hunk: 80 bytes. */
struct hunk_block {
    uint64_t place;
    uint64_t bytes;         /* the bytes of the block in the file */
    uint64_t unit;
    uint64_t hunk;
    uint64_t content;       /* the byte at which its content, its name or its data begins */
    uint64_t content_bytes; /* and how many, a name's with padding; both 0 where there are none */
    uint64_t memory;        /* the bytes of a CODE, DATA or BSS block in memory, else 0 */
    uint64_t items;         /* offsets, symbols or entries: the rows that it has below, else 0 */
    uint32_t kind;          /* the type, bits 0 to 28 of its word: 0x3E9 is CODE */
    uint32_t flags;         /* bits 29 to 31: 1 advisory, 2 chip memory, 4 fast memory */
    uint64_t reserved;      /* 0 */
};

/* A row for each block of each hunk, its END too. The header of a load file and those of units are
 * no blocks of a hunk. */
struct hunk_answer hunk_blocks(const uint8_t *bytes, uint64_t bytes_len, struct hunk_block *rows,
                               uint64_t rows_len);

/* A symbol: 48 bytes. */
struct hunk_symbol {
    uint64_t place;
    uint64_t unit;
    uint64_t hunk;
    uint64_t name;
    uint64_t name_bytes;
    uint32_t value;
    uint32_t reserved;      /* 0 */
};

/* A row for each symbol of each SYMBOL block. */
struct hunk_answer hunk_symbols(const uint8_t *bytes, uint64_t bytes_len, struct hunk_symbol *rows,
                                uint64_t rows_len);

/* An offset that is relocated: 48 bytes. */
struct hunk_relocation {
    uint64_t place;
    uint64_t unit;
    uint64_t hunk;
    uint32_t kind;          /* the type of the block: 0x3EC is RELOC32 */
    uint32_t width;         /* the bytes that are relocated: 1, 2 or 4 */
    uint32_t target;        /* a hunk, counted from 0 in the unit; in an object file any number */
    uint32_t offset;        /* in bytes from the start of the hunk */
    uint64_t reserved;      /* 0 */
};

/* A row for each offset of each relocation block. */
struct hunk_answer hunk_relocations(const uint8_t *bytes, uint64_t bytes_len,
                                    struct hunk_relocation *rows, uint64_t rows_len);

/* An entry of an EXT block, a definition or references: 64 bytes. */
struct hunk_entry {
    uint64_t place;
    uint64_t unit;
    uint64_t hunk;
    uint64_t name;
    uint64_t name_bytes;
    uint64_t references;    /* how many offsets refer to it in the hunk; 0 in a definition */
    uint32_t value;         /* of a definition; the bytes of a common block; else 0 */
    uint32_t kind;          /* 0 SYMB, 1 DEF, 2 ABS; 129 REF32 and the others refer */
    uint64_t reserved;      /* 0 */
};

/* A row for each entry of each EXT block, which object files alone have. */
struct hunk_answer hunk_entries(const uint8_t *bytes, uint64_t bytes_len, struct hunk_entry *rows,
                                uint64_t rows_len);

/* An offset that refers to what an EXT entry names: 32 bytes. */
struct hunk_reference {
    uint64_t entry;         /* the entry, by the number of its row from hunk_entries, from 0 */
    uint64_t place;
    uint32_t offset;        /* in bytes from the start of the hunk */
    uint32_t width;         /* the bytes that refer: 1, 2 or 4 */
    uint64_t reserved;      /* 0 */
};

/* A row for each reference of each EXT entry. */
struct hunk_answer hunk_references(const uint8_t *bytes, uint64_t bytes_len,
                                   struct hunk_reference *rows, uint64_t rows_len);

/* What a part is. */
/* a hunk of a load file begins: its entry of the table */
#define HUNK_PART_HUNK UINT32_C(1)
/* a unit of an object file begins */
#define HUNK_PART_UNIT UINT32_C(2)
/* a block of a hunk, its END too */
#define HUNK_PART_BLOCK UINT32_C(3)
/* offsets with one target, in the relocation block before it */
#define HUNK_PART_GROUP UINT32_C(4)
/* a symbol, in the SYMBOL block before it */
#define HUNK_PART_SYMBOL UINT32_C(5)
/* an entry, in the EXT block before it */
#define HUNK_PART_ENTRY UINT32_C(6)

/* A part of a file: 48 bytes. A field that its kind has no use for is 0, but for the places of no
 * bytes and of no offsets. */
struct hunk_part {
    uint32_t what;          /* HUNK_PART_HUNK to HUNK_PART_ENTRY */
    uint32_t word;          /* HUNK: the size word; BLOCK: the block word; GROUP: the target;
                             * SYMBOL: the top byte of its word; ENTRY: its type */
    uint32_t value;         /* HUNK: the attributes; SYMBOL, ENTRY: the value, or the bytes of a
                             * common block; CODE, DATA: bits 30 and 31 of the size word; BSS: the
                             * size word */
    uint32_t reserved;      /* 0; hunk_build does not read it */
    uint64_t content;       /* the byte at which its content, its name or its data begins */
    uint64_t content_bytes; /* and how many: a name has all of its longwords */
    uint64_t offsets;       /* the byte at which its offsets begin, four bytes each */
    uint64_t offset_count;  /* and how many offsets */
};

/* A row for each part, which together tell all that the file says. Each HUNK stands before the
 * blocks of its hunk, though its size word stands in the header. Counts, what ends a list, and the
 * header's other longwords have no row. */
struct hunk_answer hunk_parts(const uint8_t *bytes, uint64_t bytes_len, struct hunk_part *rows,
                              uint64_t rows_len);

/* Writes the file that the rows spell, of either kind, as the first row says, to the text.
 *
 *   rows   the parts, in the order of hunk_parts. A row is HUNK_STRANGE where a field is not 0 that
 *          its kind has no use for, but for places as above. `reserved` is not read: give 0 there,
 *          as a later version may give it a meaning
 *   bytes  what content and offsets are bytes of: a file that was read, for instance, with what is
 *          new behind it. Rows may point at the same bytes. After a content zero bytes are written,
 *          up to a whole longword
 *   text   where the file goes: 20 bytes, 16 for each row, and as many as the rows point at are
 *          always enough
 *
 * HUNK_OK       `hunk` is the hunks of a load file, 0 of an object file; `place` and `count` are the
 *               bytes of the file.
 * HUNK_NO_ROOM  the text is too short. `count` is how many bytes are needed, else as at HUNK_OK.
 * HUNK_STRANGE  no file has such a row there. `count` is the row, from 0 on, `place` the byte of
 *               the file at which it would begin.
 *
 * Else it is the first fault of that file, as at hunk_check, and `count` the row that has it. At
 * HUNK_TRUNCATED that is rows_len: a hunk is open, or there are no rows. The targets and offsets of
 * object files are left to hunk_check. Text after the file, and at any answer but HUNK_OK all text,
 * is as it was. */
struct hunk_answer hunk_build(const struct hunk_part *rows, uint64_t rows_len, const uint8_t *bytes,
                              uint64_t bytes_len, uint8_t *text, uint64_t text_len);

/* What is suspicious in a load file that is accepted. Later versions may have more kinds, which a
 * program passes over. */
/* the offset of a relocation is odd */
#define HUNK_WARNING_ODD_OFFSET UINT32_C(1)
/* a longword is relocated more than once */
#define HUNK_WARNING_TWICE UINT32_C(2)
/* two relocated longwords overlap */
#define HUNK_WARNING_OVERLAP UINT32_C(3)
/* a longword of a BSS hunk is relocated */
#define HUNK_WARNING_IN_BSS UINT32_C(4)
/* a relocated longword leads outside its target */
#define HUNK_WARNING_OUTSIDE_TARGET UINT32_C(5)
/* the value of a symbol is outside its hunk */
#define HUNK_WARNING_SYMBOL_OUTSIDE UINT32_C(6)
/* the first hunk has no content */
#define HUNK_WARNING_NO_ENTRY UINT32_C(7)
/* a content block asks for a memory that the table does not ask for */
#define HUNK_WARNING_MEMORY_IGNORED UINT32_C(8)

/* Something suspicious in a load file: 40 bytes. */
struct hunk_warning {
    uint64_t place;         /* the byte of the file at which its offset or its symbol stands, or the
                             * content block of the hunk */
    uint64_t hunk;
    uint32_t kind;          /* HUNK_WARNING_ODD_OFFSET to HUNK_WARNING_MEMORY_IGNORED */
    uint32_t offset;        /* that is relocated, in bytes from the start of the hunk; else 0 */
    uint32_t target;        /* that of the relocation; the hunk of a symbol; else 0 */
    uint32_t value;         /* the longword at the offset, before any relocation; that of a symbol;
                             * of MEMORY_IGNORED what the block asks for: 1 chip, 2 fast; else 0 */
    uint32_t other;         /* of OVERLAP the least other offset that is 1 to 3 apart; else 0 */
    uint32_t reserved;      /* 0 */
};

/* A row for each warning: those of one longword in the order of their kinds. An object file has
 * none, and hunk_check tells what is wrong with its offsets.
 *
 *   room    memory for the call: an element for each hunk of the file and, of the hunk with most
 *           relocations, one for each offset. bytes_len / 4 elements are always enough. What they
 *           hold afterwards, at any answer, is unspecified. An object file needs none.
 *
 * HUNK_NO_ROOM with count 0 says that the room is too small; hunk and place are as at HUNK_OK. Else
 * it answers as the calls above. No file has more rows than bytes, nor an offset more than four. */
struct hunk_answer hunk_warnings(const uint8_t *bytes, uint64_t bytes_len, uint32_t *room,
                                 uint64_t room_len, struct hunk_warning *rows, uint64_t rows_len);

/* Writes the object file that the bytes are, or the load file that they begin with, to the text,
 * without its NAME, SYMBOL, DEBUG and ADVISORY blocks. The first longword says which, as at
 * hunk_check.
 *
 *   bytes   the file, whole; other bytes may follow a load file, and are left out
 *   text    where the stripped file goes: as many bytes as the file has are always enough
 *
 * HUNK_OK       hunk: the hunks of a load file, 1 or more; 0 of an object file; place: the bytes of
 *               the file; count: the bytes that were written.
 * HUNK_NO_ROOM  the text is too short. count: the bytes that are needed; hunk and place as at
 *               HUNK_OK.
 * Else the first fault of the bytes, as at hunk_check.
 *
 * With enough room, each file without a fault is stripped. Text after what is written, and at any
 * answer but HUNK_OK all text, is as it was. A stripped load file loads the same, and a stripped
 * object file has the same findings. Where the text is shorter than the file, what stays is counted
 * before it is copied.
 */
struct hunk_answer hunk_strip(const uint8_t *bytes, uint64_t bytes_len, uint8_t *text,
                              uint64_t text_len);

/* ---- Load files in other spellings.
 *
 * Linkers also write blocks of short relocations, whose words have 16 bits (3FC, or 3F7 as the
 * LoadSeg of V37 took it), and leave out the END of a hunk before the next CODE, DATA or BSS block,
 * or at the end of the file. No call above takes such a file. hunk_plain writes the plain spelling
 * of it, which all of them take, and which stands for the same hunks.
 *
 * These three calls refuse no bytes. What they do not know stays as it is in the plain spelling,
 * where the calls above refuse it; so no reason is lost.
 */

/* How an input spells its file: 32 bytes. Where short_blocks and ends are 0, the input is its own
 * plain spelling, byte for byte. */
struct hunk_spelling {
    uint64_t bytes;        /* the bytes of the plain spelling */
    uint64_t short_blocks; /* the blocks of short relocations that are RELOC32 there */
    uint64_t ends;         /* the END that the input leaves out */
    uint64_t reserved;     /* 0 */
};

/* Tells how the bytes spell their file, in one pass over them. */
struct hunk_spelling hunk_spelling_of(const uint8_t *bytes, uint64_t bytes_len);

/* Writes the plain spelling of the bytes to the text.
 *
 *   bytes   the input, whole; what follows the file stays after it
 *   text    where the plain spelling goes: twice the bytes of the input are always enough
 *
 * HUNK_OK       place: the bytes that were read, all of them; count: the bytes that were written.
 * HUNK_NO_ROOM  the text is too short. count: the bytes that are needed; place as at HUNK_OK. With
 *               text_len 0 this asks for them.
 *
 * Text after what is written, and at HUNK_NO_ROOM all text, is as it was.
 */
struct hunk_answer hunk_plain(const uint8_t *bytes, uint64_t bytes_len, uint8_t *text,
                              uint64_t text_len);

/* The byte of the input at which a byte of its plain spelling stands, both counted from 0. So it
 * says where in the input a refusal of the plain spelling is.
 *
 * A byte that is put in has the place of the next one that is not. Such bytes are those of an END
 * that was left out, and the first two of each number of a short block, which has 16 bits in the
 * input. (So are four where a short block is filled up with another number than 0: the word 3FC is
 * put in before that number, and is refused.) All others stand as they are, each at its own byte,
 * also in a longword that is cut short; of the word of a short block some have other values.
 *
 * From the end of the plain spelling on, it is bytes_len. A later place is not before an earlier
 * one. Where short_blocks and ends are 0, each place up to bytes_len is its own. */
uint64_t hunk_input_place(const uint8_t *bytes, uint64_t bytes_len, uint64_t place);

/* ---- What stands before a fault.
 *
 * The calls above list only a file that is accepted. For one that is refused, or not whole,
 * hunk_front writes another file, which begins as it does and is accepted. So they list what stands
 * before the fault.
 *
 * The front of an input is the longest run of its first longwords of which none is refused, and
 * which ends where a block word may come: after the table of a load file, the name of a unit, a
 * block, or an END, but for the last END of a load file. So the front of a whole load file ends
 * before its last END.
 *
 * What closes a front is END where a hunk is open, and before it a BSS block of no longwords where
 * that hunk has no CODE, DATA or BSS block yet. Such a block and END follow for each hunk of the
 * table that is left.
 */

/* Writes the front of the bytes to the text, and what closes it. The first longword says which kind
 * of file they begin as, as at hunk_check.
 *
 *   bytes   the input, of any bytes
 *   text    where the file goes: the bytes of the input, 12 more, and 12 for each hunk of the table
 *           are always enough. So are four times the bytes of the input.
 *
 * HUNK_OK       hunk: the hunks of a load file, 1 or more; 0 of an object file; place: the bytes of
 *               the front; count: the bytes that were written. All are 0 where there is no front:
 *               the bytes begin as neither kind of file, or the header of the load file, or the
 *               first unit's word and name, are refused or not whole.
 * HUNK_NO_ROOM  the text is too short. count: the bytes that are needed; hunk and place as at
 *               HUNK_OK. With text_len 0 this asks for them.
 *
 * No bytes are refused. A row that another call writes for the text is the input's where its place
 * is below that of this answer, and else that of what closes the front. Text after what is written,
 * and at HUNK_NO_ROOM all text, is as it was.
 */
struct hunk_answer hunk_front(const uint8_t *bytes, uint64_t bytes_len, uint8_t *text,
                              uint64_t text_len);

/* Writes the name of an answer's number to the text, with no zero after it.
 *
 * HUNK_OK       count: the bytes of the name, at most 17; none for 0 and above 33.
 * HUNK_NO_ROOM  count: the bytes that are needed; the text is as it was.
 *
 * Text after the name is as it was.
 */
struct hunk_answer hunk_reason(uint32_t number, uint8_t *text, uint64_t text_len);

/* Writes what an answer's number means to the text, with no zero after it: a sentence in ASCII, at
 * most 75 bytes, without a capital and a full stop.
 *
 * HUNK_OK       count: the bytes of the sentence; none for 0 and above 33.
 * HUNK_NO_ROOM  count: the bytes that are needed; the text is as it was.
 *
 * Text after the sentence is as it was.
 */
struct hunk_answer hunk_reason_text(uint32_t number, uint8_t *text, uint64_t text_len);

#ifdef __cplusplus
}
#endif
#endif
