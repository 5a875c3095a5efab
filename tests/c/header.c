/* Whether the header says what the library has: the types of its calls (types.h), the layout of the
 * structs, as the crate's own tests have their sizes, and the number of each reason with its name.
 * Status 1 where it does not. */
#include "hunk.h"
#include "types.h"
#include <stddef.h>
#include <stdio.h>
#include <string.h>

#define CHECK(name, holds) typedef char check_##name[(holds) ? 1 : -1]
CHECK(answer_size, sizeof(struct hunk_answer) == 24);
CHECK(answer_hunk, offsetof(struct hunk_answer, hunk) == 4);
CHECK(answer_place, offsetof(struct hunk_answer, place) == 8);
CHECK(answer_count, offsetof(struct hunk_answer, count) == 16);
CHECK(row_size, sizeof(struct hunk_row) == 16);
CHECK(row_extra, offsetof(struct hunk_row, extra) == 4);
CHECK(row_bytes, offsetof(struct hunk_row, bytes) == 8);
CHECK(row_memory, offsetof(struct hunk_row, memory) == 12);
CHECK(finding_size, sizeof(struct hunk_finding) == 40);
CHECK(finding_place, offsetof(struct hunk_finding, place) == 0);
CHECK(finding_unit, offsetof(struct hunk_finding, unit) == 8);
CHECK(finding_hunk, offsetof(struct hunk_finding, hunk) == 16);
CHECK(finding_offset, offsetof(struct hunk_finding, offset) == 24);
CHECK(finding_fault, offsetof(struct hunk_finding, fault) == 28);
CHECK(finding_reserved, offsetof(struct hunk_finding, reserved) == 32);
CHECK(place_size, sizeof(struct hunk_place) == 12);
CHECK(place_extra, offsetof(struct hunk_place, extra) == 4);
CHECK(place_base, offsetof(struct hunk_place, base) == 8);
CHECK(loader_size, sizeof(struct hunk_loader) == 96);
CHECK(loader_start, offsetof(struct hunk_loader, start) == 0);
CHECK(loader_fed, offsetof(struct hunk_loader, fed) == 8);
CHECK(loader_place, offsetof(struct hunk_loader, place) == 16);
CHECK(loader_refused, offsetof(struct hunk_loader, refused) == 24);
CHECK(loader_refused_hunk, offsetof(struct hunk_loader, refused_hunk) == 28);
CHECK(loader_hunk, offsetof(struct hunk_loader, hunk) == 32);
CHECK(loader_hunks, offsetof(struct hunk_loader, hunks) == 36);
CHECK(loader_ahead, offsetof(struct hunk_loader, ahead) == 40);
CHECK(loader_has_content, offsetof(struct hunk_loader, has_content) == 44);
CHECK(loader_phase, offsetof(struct hunk_loader, phase) == 48);
CHECK(loader_part, offsetof(struct hunk_loader, part) == 52);
CHECK(loader_owed, offsetof(struct hunk_loader, owed) == 56);
CHECK(loader_pending, offsetof(struct hunk_loader, pending) == 60);
CHECK(loader_first, offsetof(struct hunk_loader, first) == 61);
CHECK(loader_second, offsetof(struct hunk_loader, second) == 62);
CHECK(loader_third, offsetof(struct hunk_loader, third) == 63);
CHECK(loader_reserved, offsetof(struct hunk_loader, reserved) == 64);
CHECK(loader_reserved_size, sizeof(((struct hunk_loader *)0)->reserved) == 32);
CHECK(block_size, sizeof(struct hunk_block) == 80);
CHECK(block_place, offsetof(struct hunk_block, place) == 0);
CHECK(block_bytes, offsetof(struct hunk_block, bytes) == 8);
CHECK(block_unit, offsetof(struct hunk_block, unit) == 16);
CHECK(block_hunk, offsetof(struct hunk_block, hunk) == 24);
CHECK(block_content, offsetof(struct hunk_block, content) == 32);
CHECK(block_content_bytes, offsetof(struct hunk_block, content_bytes) == 40);
CHECK(block_memory, offsetof(struct hunk_block, memory) == 48);
CHECK(block_items, offsetof(struct hunk_block, items) == 56);
CHECK(block_kind, offsetof(struct hunk_block, kind) == 64);
CHECK(block_flags, offsetof(struct hunk_block, flags) == 68);
CHECK(block_reserved, offsetof(struct hunk_block, reserved) == 72);
CHECK(symbol_size, sizeof(struct hunk_symbol) == 48);
CHECK(symbol_place, offsetof(struct hunk_symbol, place) == 0);
CHECK(symbol_unit, offsetof(struct hunk_symbol, unit) == 8);
CHECK(symbol_hunk, offsetof(struct hunk_symbol, hunk) == 16);
CHECK(symbol_name, offsetof(struct hunk_symbol, name) == 24);
CHECK(symbol_name_bytes, offsetof(struct hunk_symbol, name_bytes) == 32);
CHECK(symbol_value, offsetof(struct hunk_symbol, value) == 40);
CHECK(symbol_reserved, offsetof(struct hunk_symbol, reserved) == 44);
CHECK(relocation_size, sizeof(struct hunk_relocation) == 48);
CHECK(relocation_place, offsetof(struct hunk_relocation, place) == 0);
CHECK(relocation_unit, offsetof(struct hunk_relocation, unit) == 8);
CHECK(relocation_hunk, offsetof(struct hunk_relocation, hunk) == 16);
CHECK(relocation_kind, offsetof(struct hunk_relocation, kind) == 24);
CHECK(relocation_width, offsetof(struct hunk_relocation, width) == 28);
CHECK(relocation_target, offsetof(struct hunk_relocation, target) == 32);
CHECK(relocation_offset, offsetof(struct hunk_relocation, offset) == 36);
CHECK(relocation_reserved, offsetof(struct hunk_relocation, reserved) == 40);
CHECK(entry_size, sizeof(struct hunk_entry) == 64);
CHECK(entry_place, offsetof(struct hunk_entry, place) == 0);
CHECK(entry_unit, offsetof(struct hunk_entry, unit) == 8);
CHECK(entry_hunk, offsetof(struct hunk_entry, hunk) == 16);
CHECK(entry_name, offsetof(struct hunk_entry, name) == 24);
CHECK(entry_name_bytes, offsetof(struct hunk_entry, name_bytes) == 32);
CHECK(entry_references, offsetof(struct hunk_entry, references) == 40);
CHECK(entry_value, offsetof(struct hunk_entry, value) == 48);
CHECK(entry_kind, offsetof(struct hunk_entry, kind) == 52);
CHECK(entry_reserved, offsetof(struct hunk_entry, reserved) == 56);
CHECK(reference_size, sizeof(struct hunk_reference) == 32);
CHECK(reference_entry, offsetof(struct hunk_reference, entry) == 0);
CHECK(reference_place, offsetof(struct hunk_reference, place) == 8);
CHECK(reference_offset, offsetof(struct hunk_reference, offset) == 16);
CHECK(reference_width, offsetof(struct hunk_reference, width) == 20);
CHECK(reference_reserved, offsetof(struct hunk_reference, reserved) == 24);
CHECK(part_size, sizeof(struct hunk_part) == 48);
CHECK(part_what, offsetof(struct hunk_part, what) == 0);
CHECK(part_word, offsetof(struct hunk_part, word) == 4);
CHECK(part_value, offsetof(struct hunk_part, value) == 8);
CHECK(part_reserved, offsetof(struct hunk_part, reserved) == 12);
CHECK(part_content, offsetof(struct hunk_part, content) == 16);
CHECK(part_content_bytes, offsetof(struct hunk_part, content_bytes) == 24);
CHECK(part_offsets, offsetof(struct hunk_part, offsets) == 32);
CHECK(part_offset_count, offsetof(struct hunk_part, offset_count) == 40);
CHECK(warning_size, sizeof(struct hunk_warning) == 40);
CHECK(warning_place, offsetof(struct hunk_warning, place) == 0);
CHECK(warning_hunk, offsetof(struct hunk_warning, hunk) == 8);
CHECK(warning_kind, offsetof(struct hunk_warning, kind) == 16);
CHECK(warning_offset, offsetof(struct hunk_warning, offset) == 20);
CHECK(warning_target, offsetof(struct hunk_warning, target) == 24);
CHECK(warning_value, offsetof(struct hunk_warning, value) == 28);
CHECK(warning_other, offsetof(struct hunk_warning, other) == 32);
CHECK(warning_reserved, offsetof(struct hunk_warning, reserved) == 36);
CHECK(warning_1, HUNK_WARNING_ODD_OFFSET == 1);
CHECK(warning_2, HUNK_WARNING_TWICE == 2);
CHECK(warning_3, HUNK_WARNING_OVERLAP == 3);
CHECK(warning_4, HUNK_WARNING_IN_BSS == 4);
CHECK(warning_5, HUNK_WARNING_OUTSIDE_TARGET == 5);
CHECK(warning_6, HUNK_WARNING_SYMBOL_OUTSIDE == 6);
CHECK(warning_7, HUNK_WARNING_NO_ENTRY == 7);
CHECK(warning_8, HUNK_WARNING_MEMORY_IGNORED == 8);
CHECK(spelling_size, sizeof(struct hunk_spelling) == 32);
CHECK(spelling_bytes, offsetof(struct hunk_spelling, bytes) == 0);
CHECK(spelling_short_blocks, offsetof(struct hunk_spelling, short_blocks) == 8);
CHECK(spelling_ends, offsetof(struct hunk_spelling, ends) == 16);
CHECK(spelling_reserved, offsetof(struct hunk_spelling, reserved) == 24);
CHECK(unit_size, sizeof(struct hunk_unit) == 40);
CHECK(unit_place, offsetof(struct hunk_unit, place) == 0);
CHECK(unit_name, offsetof(struct hunk_unit, name) == 8);
CHECK(unit_name_bytes, offsetof(struct hunk_unit, name_bytes) == 16);
CHECK(unit_hunks, offsetof(struct hunk_unit, hunks) == 24);
CHECK(unit_reserved, offsetof(struct hunk_unit, reserved) == 32);

/* In the order of their numbers, with their names and what they mean. */
static const struct {
    uint32_t number;
    const char *name;
    const char *meaning;
} reasons[] = {
    {HUNK_OK, "", ""},
    {HUNK_NOT_LOAD_FILE, "NotLoadFile", "the first longword is not 3F3"},
    {HUNK_IS_OBJECT, "IsObject",
     "a load file is needed, and this is an object file: link it first"},
    {HUNK_LIBRARY, "Library", "a library for a linker, with a LIB or INDEX block"},
    {HUNK_RESIDENT, "Resident", "the header names resident libraries, as for the first AmigaDOS"},
    {HUNK_NO_HUNKS, "NoHunks", "the header has a table of no hunks"},
    {HUNK_TOO_MANY_HUNKS, "TooManyHunks", "the header has a table of more than 65,536 hunks"},
    {HUNK_FIRST_HUNK, "FirstHunk", "the first hunk of the table is not 0"},
    {HUNK_LAST_HUNK, "LastHunk",
     "the last hunk is not the table size less 1, as in files with overlays"},
    {HUNK_BOTH_BITS, "BothBits", "a block word has bits 30 and 31 both set"},
    {HUNK_ADVISORY, "Advisory", "reserved: no answer has this number"},
    {HUNK_OVERLAY, "Overlay", "an OVERLAY block, of a file with overlays"},
    {HUNK_BREAK, "Break", "a BREAK block, of a file with overlays"},
    {HUNK_SHORT_RELOC, "ShortReloc", "a block of short relocations, whose offsets have 16 bits"},
    {HUNK_NOT_IN_LOAD_FILE, "NotInLoadFile",
     "a block that only object files have: the file is only partly linked"},
    {HUNK_MISPLACED, "Misplaced",
     "a HEADER or UNIT where none may stand, or a block before the first UNIT"},
    {HUNK_UNKNOWN_BLOCK, "UnknownBlock",
     "a type of block that is not known, without the bit of advisory blocks"},
    {HUNK_SECOND_CONTENT, "SecondContent", "a second CODE, DATA or BSS block in a hunk"},
    {HUNK_BEFORE_CONTENT, "BeforeContent",
     "a relocation or EXT block before the CODE, DATA or BSS block of its hunk"},
    {HUNK_NO_CONTENT, "NoContent", "a hunk ends without a CODE, DATA or BSS block"},
    {HUNK_CONTENT_TOO_LONG, "ContentTooLong", "more content than the hunk is declared to have"},
    {HUNK_NAME_WORD, "NameWord", "the top byte of the longword with the length of a name is not 0"},
    {HUNK_NOTHING_TO_RELOCATE, "NothingToRelocate", "a relocation in a hunk of 0 bytes"},
    {HUNK_BAD_TARGET, "BadTarget", "the target of a relocation is no hunk of the file"},
    {HUNK_BAD_OFFSET, "BadOffset", "a relocated longword runs past the end of its hunk"},
    {HUNK_EXT_KIND, "ExtKind", "an EXT entry of a type that is not known"},
    {HUNK_TRUNCATED, "Truncated", "the input ends too soon"},
    {HUNK_BUDGET, "Budget", "the hunks declare more bytes than the budget allows"},
    {HUNK_FILE_LIMIT, "FileLimit",
     "as many bytes as may be read were read, and the file had not ended"},
    {HUNK_NO_BASE, "NoBase", "a hunk has no base, or would pass the address 2^32"},
    {HUNK_READ, "Read", "the input could not be read"},
    {HUNK_OUT_OF_MEMORY, "OutOfMemory", "memory was refused"},
    {HUNK_NO_ROOM, "NoRoom", "the array of the caller has too few elements"},
    {HUNK_STRANGE, "Strange", "the numbers are none of a loader or of parts, or do not fit"},
    {34, "", ""},
    {UINT32_MAX, "", ""},
};

static int is_zero(struct hunk_answer a)
{
    return a.hunk == 0 && a.place == 0;
}

typedef struct hunk_answer tells(uint32_t number, uint8_t *text, uint64_t text_len);

/* Whether this is told of a number, in text that is long enough, and in text that lacks a byte. */
static int is_told(tells *call, uint32_t number, const char *name)
{
    uint8_t text[80];
    size_t len = strlen(name);
    memset(text, '#', sizeof text);
    if (len > 0) {
        struct hunk_answer small = call(number, text, len - 1);
        if (small.number != HUNK_NO_ROOM || small.count != len || !is_zero(small) || text[0] != '#')
            return 0;
    }
    struct hunk_answer told = call(number, text, len);
    return told.number == HUNK_OK && told.count == len && is_zero(told) &&
           memcmp(text, name, len) == 0 && text[len] == '#';
}

int main(void)
{
    int status = 0;
    if (HUNK_ABI != 1 || hunk_abi() != 1) {
        fprintf(stderr, "another interface: %u\n", (unsigned)hunk_abi());
        status = 1;
    }
    for (size_t i = 0; i < sizeof reasons / sizeof *reasons; i++) {
        if (i <= HUNK_STRANGE && reasons[i].number != i) {
            fprintf(stderr, "number %u is not in its place\n", (unsigned)reasons[i].number);
            status = 1;
        }
        if (!is_told(hunk_reason, reasons[i].number, reasons[i].name)) {
            fprintf(stderr, "number %u: not %s\n", (unsigned)reasons[i].number, reasons[i].name);
            status = 1;
        }
        const char *meaning = reasons[i].meaning;
        if (strlen(meaning) > 75 || !is_told(hunk_reason_text, reasons[i].number, meaning)) {
            fprintf(stderr, "number %u does not mean: %s\n", (unsigned)reasons[i].number, meaning);
            status = 1;
        }
    }
    return status;
}
