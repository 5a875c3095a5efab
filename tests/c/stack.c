/* How much stack each call needs: no more than hunk.h says. Status 1 where one needs more. With
 * SHOW_STACK defined it prints the bytes and the name of each call. */
#include "guarded.h"
#include "painted.h"

/* The bytes that each call may need, as hunk.h has them. */
#if defined ALL
#elif defined _WIN32
#define ALL 1536
#elif defined __arm__
#define ALL 1280
#else
#define ALL 1024
#endif
#define MUCH (6 * 1024)    /* that hunk_load_packed may */
#define HUNKS 2
#define HEADER 28
#define FINDINGS 2
#define BLOCKS 7
#define PARTS 11
#define MANY 4096          /* hunks of a file whose load keeps all marks */
#define TABLE_LONGS 5      /* longwords of a header before its table */
#define OFFSETS_LONGS 11   /* longwords of a file before its many offsets */

/* A load file of a code hunk with a relocation, a symbol and debug data, and of a BSS hunk. An
 * object file of such a code hunk, whose relocation has no target, and whose reference lies
 * outside. The hunk of which there are many, without its target. */
static const uint32_t load_longs[] = {
    0x3F3, 0, HUNKS, 0, 1, 2, 1, 0x3E9, 2, 0, 0, 0x3EC, 1, 1, 4, 0,
    0x3F0, 1, 0x73000000, 0, 0, 0x3F1, 1, 0, 0x3F2, 0x3EB, 1, 0x3F2};
static const uint32_t object_longs[] = {
    0x3E7, 0, 0x3E9, 1, 0, 0x3EC, 1, 1, 0, 0, 0x3EF, 0x81000001, 0x73000000, 1, 4, 0,
    0x3F0, 1, 0x73000000, 0, 0, 0x3F1, 1, 0, 0x3F2};
static const uint32_t hunk_longs[] = {0x3E9, 1, 0, 0x3EC, 1, 0, 0, 0, 0x3F2};
/* The load file in another spelling: a short block, and no END. */
static const uint32_t wide_longs[] = {
    0x3F3, 0, HUNKS, 0, 1, 2, 1, 0x3E9, 2, 0, 0, 0x3FC, 0x10001, 0x40000,
    0x3F0, 1, 0x73000000, 0, 0, 0x3F1, 1, 0, 0x3EB, 1};
static uint8_t file[sizeof load_longs];
static uint8_t wide[sizeof wide_longs];
static uint8_t object[sizeof object_longs];
static uint8_t offsets[4 * (OFFSETS_LONGS + MANY + 2)];
static uint8_t many[4 * (TABLE_LONGS + MANY) + MANY * sizeof hunk_longs];

static uint8_t memory[12];
static uint8_t many_memory[4 * MANY];
static uint8_t text[sizeof load_longs];
static uint8_t many_text[sizeof many];
static struct hunk_row rows[HUNKS];
static struct hunk_place places[HUNKS] = {{2, 0, 0}, {1, 0, 8}};
static const uint32_t bases[HUNKS] = {0, 8};
static struct hunk_finding findings[FINDINGS];
static struct hunk_block blocks[BLOCKS];
static struct hunk_symbol symbol;
static struct hunk_relocation relocation;
static struct hunk_entry entry;
static struct hunk_reference reference;
static struct hunk_unit unit;
static struct hunk_part parts[PARTS];
static struct hunk_warning warnings[2 * MANY + 1];
static uint32_t elements[MANY + 1];
static struct hunk_loader loader;
static struct hunk_answer answer;

static void put_longs(uint8_t *bytes, const uint32_t *longs, size_t len)
{
    for (size_t i = 0; i < len; i++)
        bytes[i] = (uint8_t)(longs[i / 4] >> (24 - 8 * (i % 4)));
}

/* A load file of many hunks of a longword, each relocated to one far from the last. */
static void put_many(void)
{
    const uint32_t header[TABLE_LONGS] = {0x3F3, 0, MANY, 0, MANY - 1};
    const uint32_t size = 1;
    uint8_t *at = many + sizeof header;
    put_longs(many, header, sizeof header);
    for (uint32_t i = 0; i < MANY; i++, at += sizeof size)
        put_longs(at, &size, sizeof size);
    for (uint32_t i = 0; i < MANY; i++, at += sizeof hunk_longs) {
        const uint32_t target = (i * 1777 + 1) % MANY;
        put_longs(at, hunk_longs, sizeof hunk_longs);
        put_longs(at + 20, &target, sizeof target);
    }
}

/* A load file of a BSS hunk that is relocated at many offsets, which neither rise nor fall. */
static void put_offsets(void)
{
    const uint32_t head[OFFSETS_LONGS] = {0x3F3, 0, 1, 0, 0, MANY, 0x3EB, 0, 0x3EC, MANY, 0};
    const uint32_t end[] = {0, 0x3F2};
    uint8_t *at = offsets + sizeof head;
    put_longs(offsets, head, sizeof head);
    for (uint32_t i = 0; i < MANY; i++, at += 4) {
        const uint32_t offset = 4 * (i * 1777 % (MANY - 1));
        put_longs(at, &offset, sizeof offset);
    }
    put_longs(at, end, sizeof end);
}

static void nothing(void) { answer.number = HUNK_OK; }
static void table(void) { answer = hunk_table(file, sizeof file, 12, rows, HUNKS); }
static void load(void) { answer = hunk_load(file, sizeof file, bases, HUNKS, memory, 12); }
static void load_at(void) { answer = hunk_load_at(file, sizeof file, bases, HUNKS, 0, memory, 12); }
static void packed(void) { answer = hunk_load_packed(file, sizeof file, 0, memory, 12); }
static void packed_many(void)
{
    answer = hunk_load_packed(many, sizeof many, 0, many_memory, sizeof many_memory);
}
static void begin(void) { answer = hunk_begin(&loader, places, HUNKS, HEADER, memory, 12); }
static void end(void) { answer = hunk_end(&loader); }
static void want(void) { answer = hunk_want(&loader); }
static void check(void) { answer = hunk_check(object, sizeof object, findings, FINDINGS); }
static void check_load(void) { answer = hunk_check(file, sizeof file, findings, FINDINGS); }
static void list_load(void) { answer = hunk_blocks(file, sizeof file, blocks, BLOCKS); }
static void list(void) { answer = hunk_blocks(object, sizeof object, blocks, BLOCKS); }
static void symbols(void) { answer = hunk_symbols(object, sizeof object, &symbol, 1); }
static void relocations(void) { answer = hunk_relocations(object, sizeof object, &relocation, 1); }
static void entries(void) { answer = hunk_entries(object, sizeof object, &entry, 1); }
static void references(void) { answer = hunk_references(object, sizeof object, &reference, 1); }
static void units(void) { answer = hunk_units(object, sizeof object, &unit, 1); }
static void parted(void) { answer = hunk_parts(object, sizeof object, parts, PARTS); }
static void parted_load(void) { answer = hunk_parts(file, sizeof file, parts, PARTS); }
static void built(void)
{
    answer = hunk_parts(file, sizeof file, parts, PARTS);
    answer = hunk_build(parts, answer.count, file, sizeof file, text, sizeof text);
}
static void warned(void) { answer = hunk_warnings(file, sizeof file, elements, 3, warnings, 1); }
static void warned_of_many(void)
{
    answer = hunk_warnings(offsets, sizeof offsets, elements, MANY + 1, warnings, 2 * MANY + 1);
}
static void strip(void) { answer = hunk_strip(object, sizeof object, text, sizeof text); }
static void strip_load(void) { answer = hunk_strip(file, sizeof file, text, sizeof text); }
static void plain(void) { answer = hunk_plain(wide, sizeof wide, text, sizeof text); }
static void spelled(void)
{
    struct hunk_spelling s = hunk_spelling_of(wide, sizeof wide);
    answer.number = s.bytes == sizeof file && s.short_blocks == 1 && s.ends == 2 ? HUNK_OK : 1;
}
static void input_place(void)
{
    uint64_t place = hunk_input_place(wide, sizeof wide, sizeof file - 1);
    answer.number = place == sizeof wide ? HUNK_OK : 1;
}
static void front(void) { answer = hunk_front(file, sizeof file - 4, text, sizeof text); }
static void front_of_many(void)
{
    answer = hunk_front(many, sizeof many, many_text, sizeof many_text);
}
static void reason(void) { answer = hunk_reason(HUNK_NOTHING_TO_RELOCATE, text, sizeof text); }
static void meaning(void) { answer = hunk_reason_text(HUNK_MISPLACED, text, sizeof text); }

static void feed(void)
{
    answer = hunk_feed(&loader, places, HUNKS, memory, 12, file + HEADER, sizeof file - HEADER);
}

static const struct {
    const char *name;
    void (*make)(void);
    size_t most;
} calls[] = {
    {"hunk_table", table, ALL},
    {"hunk_load", load, ALL},
    {"hunk_load_at", load_at, ALL},
    {"hunk_load_packed", packed, MUCH},
    {"hunk_load_packed of many hunks", packed_many, MUCH},
    {"hunk_begin", begin, ALL},
    {"hunk_feed", feed, ALL},
    {"hunk_end", end, ALL},
    {"hunk_want", want, ALL},
    {"hunk_check", check, ALL},
    {"hunk_check of a load file", check_load, ALL},
    {"hunk_blocks", list, ALL},
    {"hunk_blocks of a load file", list_load, ALL},
    {"hunk_symbols", symbols, ALL},
    {"hunk_relocations", relocations, ALL},
    {"hunk_entries", entries, ALL},
    {"hunk_references", references, ALL},
    {"hunk_units", units, ALL},
    {"hunk_parts", parted, ALL},
    {"hunk_parts of a load file", parted_load, ALL},
    {"hunk_parts, and hunk_build of a load file", built, ALL},
    {"hunk_warnings", warned, ALL},
    {"hunk_warnings of many offsets", warned_of_many, ALL},
    {"hunk_strip", strip, ALL},
    {"hunk_strip of a load file", strip_load, ALL},
    {"hunk_plain", plain, ALL},
    {"hunk_spelling_of", spelled, ALL},
    {"hunk_input_place", input_place, ALL},
    {"hunk_front", front, ALL},
    {"hunk_front of many hunks", front_of_many, ALL},
    {"hunk_reason", reason, ALL},
    {"hunk_reason_text", meaning, ALL},
};

int main(void)
{
    put_longs(file, load_longs, sizeof file);
    put_longs(wide, wide_longs, sizeof wide);
    put_longs(object, object_longs, sizeof object);
    put_many();
    put_offsets();
    size_t none = stack_of(nothing);
    for (size_t i = 0; i < sizeof calls / sizeof *calls; i++) {
        size_t needed = stack_of(calls[i].make) - none;
#ifdef SHOW_STACK
        printf("%5lu %s\n", (unsigned long)needed, calls[i].name);
#endif
        expect(answer.number == HUNK_OK, calls[i].name, "an answer");
        expect(needed <= calls[i].most, calls[i].name, "the stack");
    }
    return failures > 0;
}
