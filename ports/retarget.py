#!/usr/bin/env python3
"""retarget.py FROM TO TRIPLE: writes the LLVM module FROM, text as `rattle` makes it for Linux on x86-64, anew for another
machine.

What changes is the triple, the layout of data, which is asked of clang, and the attributes that name x86-64's processor. A
machine has to keep the low byte first, and to align 64-bit numbers to 8 bytes. Where its pointers have 64 bits nothing else
changes.

Where they have 32 bits, memory keeps what it holds on x86-64, byte for byte, with all addresses below 2^32: a pointer lies
in 8 bytes, of which the upper 4 are zero. So these lines change:
- a pointer that is stored: it is widened to 64 bits, and that is stored; to load one, the lower 4 bytes are enough;
- room for a pointer on the stack: 8 bytes;
- a pointer in a constant, which has to be packed: 4 bytes of zero follow it;
- a struct that is loaded: its parts are, from where they lie on x86-64;
- an address that is taken as a number: it is widened.

Each line has to be of a form that is known below. Any other is refused, with its number: a pointer alone in a global, a
number that is taken for a pointer, a step over anything but bytes, a struct in a struct, a call of what is no name. This
script is trusted.

What asks for pages of a large stack one by one (the attribute "probe-stack") is x86-64's, and is left out. It matters to a
program whose stack ends in no page that faults; the library's calls take less than a page, but for the one that hunk.h
says.
"""
import pathlib
import re
import subprocess
import sys
import tempfile

sys.dont_write_bytecode = True

SIZES = {"i1": 1, "i8": 1, "i16": 2, "i32": 4, "i64": 8, "i128": 16, "double": 8, "ptr": 8}
TYPE = "(?:i1|i8|i16|i32|i64|i128|double|ptr)"
STRUCT = rf"\{{ {TYPE}(?:, {TYPE})* \}}"
RESULT = rf"(?:void|{TYPE}|{STRUCT})"
WORD = r'(?:"[^"]+"|[\w.$]+)'
LOCAL = f"%{WORD}"
NAME = f"@{WORD}"
REAL = r"(?:-?[0-9]\.[0-9]+e[+-][0-9]+|0x[0-9A-F]{16})"
VALUE = f"(?:{LOCAL}|{NAME}|-?[0-9]+|{REAL}|true|false|null|poison|undef)"
# Bytes that are looked at side by side.
VECTOR = "<[0-9]+ x i(?:1|8)>"
SIDES = f"(?:{LOCAL}|zeroinitializer|poison)"
# What is said of an argument or an answer, none of which tells a size.
SAID = r"(?: (?:noundef|zeroext|signext|nonnull|noalias|readonly|readnone|writeonly|immarg|captures\(none\)|align [0-9]+))*"
# Notes for the optimizer, of which none is of a type.
NOTES = r"(?:, align [0-9]+)?(?:, !(?:noundef|nonnull|range|align) ![0-9]+)*"
ARGUMENTS = rf"\((?:{TYPE}{SAID} {VALUE}(?:, {TYPE}{SAID} {VALUE})*)?\)"
PARAMETERS = rf"\((?:{TYPE}{SAID}(?: {LOCAL})?(?:, {TYPE}{SAID}(?: {LOCAL})?)*)?(?:, \.\.\.)?\)"
NUMBERS = "(?:i1|i8|i16|i32|i64|i128)"
STORED = "(?:i1|i8|i16|i32|i64|i128|double)"
BYTES = r'\[[0-9]+ x i8\] (?:c"[^"]*"|zeroinitializer)'

# A line of a module that stays as it is.
STAYS = [re.compile(form) for form in (
    r"|;.*|source_filename = .*|![0-9]+ = .*|!llvm\.ident = .*|\}",
    rf"{NAME} = (?:private |internal )?(?:unnamed_addr )?(?:constant|global) {BYTES}, align [0-9]+",
    rf"declare{SAID} {RESULT} {NAME}{PARAMETERS}(?: #[0-9]+)?",
    rf"define(?: internal| dso_local)?{SAID} {RESULT} {NAME}{PARAMETERS}(?: #[0-9]+)? \{{",
    rf"{WORD}:(?: *;.*)?",
    rf"  {LOCAL} = alloca (?:{STORED}|\[[0-9]+ x i8\]), align [0-9]+",
    rf"  {LOCAL} = load (?:{TYPE}|{VECTOR}), ptr {VALUE}{NOTES}",
    rf"  store (?:{STORED} {VALUE}|{VECTOR} {SIDES}), ptr {VALUE}{NOTES}",
    # It lies as on x86-64 everywhere.
    rf"  store \{{ i64, i64 \}} {LOCAL}, ptr {VALUE}{NOTES}",
    rf"  {LOCAL} = getelementptr (?:inbounds |nuw |nusw )*i8, ptr {VALUE}, i64 {VALUE}",
    rf"  {LOCAL} = (?:add|sub|mul|udiv|sdiv|urem|srem|and|or|xor|shl|lshr|ashr)(?: nuw| nsw| exact)* {NUMBERS} {VALUE}, {VALUE}",
    rf"  {LOCAL} = (?:fadd|fsub|fmul|fdiv) double {VALUE}, {VALUE}|  {LOCAL} = fneg double {VALUE}",
    rf"  {LOCAL} = (?:icmp|fcmp) [a-z]+ {TYPE} {VALUE}, {VALUE}",
    rf"  {LOCAL} = icmp [a-z]+ {VECTOR} {SIDES}, {SIDES}",
    rf"  {LOCAL} = (?:zext|sext|trunc)(?: nneg| nuw| nsw)* {NUMBERS} {VALUE} to {NUMBERS}",
    rf"  {LOCAL} = sext {VECTOR} {SIDES} to {VECTOR}",
    rf"  {LOCAL} = (?:uitofp {NUMBERS}|bitcast i64) {VALUE} to double",
    rf"  {LOCAL} = bitcast <16 x i1> {LOCAL} to i16",
    rf"  {LOCAL} = shufflevector {VECTOR} {SIDES}, {VECTOR} {SIDES}, <[0-9]+ x i32> <i32 [0-9]+(?:, i32 [0-9]+)*>",
    rf"  {LOCAL} = select i1 {VALUE}, {TYPE} {VALUE}, {TYPE} {VALUE}",
    rf"  {LOCAL} = (?:extractvalue|insertvalue) {STRUCT} {VALUE}(?:, {TYPE} {VALUE})?, [0-9]+",
    rf"  (?:{LOCAL} = )?(?:tail )?call(?: i32 \(ptr, i32, \.\.\.\)|{SAID} {RESULT}) {NAME}{ARGUMENTS}(?: #[0-9]+)?",
    rf"  br (?:label {LOCAL}|i1 {VALUE}, label {LOCAL}, label {LOCAL})",
    rf"  switch {NUMBERS} {VALUE}, label {LOCAL} \[|    {NUMBERS} -?[0-9]+, label {LOCAL}|  \]",
    rf"  ret (?:void|{TYPE} {VALUE}|{STRUCT} {LOCAL})|  unreachable",
)]
# What the functions of a module have to say of themselves and the processor.
ATTRIBUTES = re.compile(r'attributes #[0-9]+ = \{((?: [a-z]+(?:\([a-z: ,]+\))?| "[a-z-]+"="[\w-]+")+) \}')
OF_X86 = re.compile(r' "(?:probe-stack|stack-probe-size|target-cpu)"="[\w-]+"')
LOADS = re.compile(rf"  ({LOCAL}) = load ({STRUCT}), ptr ({VALUE}), align ([0-9]+)")
STORES = re.compile(rf"  store ptr ({VALUE}), ptr ({VALUE})({NOTES})")
ROOM = re.compile(rf"  ({LOCAL}) = alloca ptr, align 8")
ADDRESS = re.compile(rf"  ({LOCAL}) = (ptrtoaddr|ptrtoint) ptr ({VALUE}) to i64")
PART = rf"ptr getelementptr \(i8, ptr {NAME}, i64 [0-9]+\)|{BYTES}"
PARTS = re.compile(PART)
PACKED = re.compile(rf"({NAME} = (?:private |internal )?constant) <\{{ .* \}}> <\{{ ((?:{PART})(?:, (?:{PART}))*) \}}>, align 8")
CHANGES = (LOADS, STORES, ROOM, ADDRESS, PACKED)


class Refused(Exception):
    """A line of a module, or a machine, that is not understood."""


def parts(struct):
    """The types of a struct's parts, and where each lies on x86-64."""
    at = 0
    for part in struct[2:-2].split(", "):
        at = -(-at // SIZES[part]) * SIZES[part]
        yield part, at
        at += SIZES[part]


def load_parts(name, struct, place, align):
    """The lines that load a struct part by part."""
    whole = "poison"
    stem = "%split." + re.sub(r"\W", "", name)
    types = list(parts(struct))
    for number, (part, at) in enumerate(types):
        made = name if number == len(types) - 1 else f"{stem}.{number}"
        aligned = min(int(align), SIZES[part])
        yield f"  {stem}.place.{number} = getelementptr i8, ptr {place}, i64 {at}"
        yield f"  {stem}.part.{number} = load {part}, ptr {stem}.place.{number}, align {aligned}"
        yield f"  {made} = insertvalue {struct} {whole}, {part} {stem}.part.{number}, {number}"
        whole = made


def pad_pointers(head, values):
    """A packed constant in which 4 bytes of zero follow each pointer."""
    made = []
    for part in PARTS.findall(values):
        made += [part, "[4 x i8] zeroinitializer"] if part.startswith("ptr ") else [part]
    types = ["ptr" if part.startswith("ptr ") else part[:part.index("]") + 1] for part in made]
    return f"{head} <{{ {', '.join(types)} }}> <{{ {', '.join(made)} }}>, align 8"


def narrow(line, number):
    """What a line becomes where pointers have 32 bits, or None where it is none of those that change."""
    if found := LOADS.fullmatch(line):
        return list(load_parts(*found.groups()))
    if found := STORES.fullmatch(line):
        value, place, notes = found.groups()
        low, wide = f"%stored.{number}.low", f"%stored.{number}"
        widened = [f"  {low} = ptrtoint ptr {value} to i32", f"  {wide} = zext i32 {low} to i64"]
        return [*widened, f"  store i64 {wide}, ptr {place}{notes}"]
    if found := ROOM.fullmatch(line):
        return [f"  {found[1]} = alloca [8 x i8], align 8"]
    if found := ADDRESS.fullmatch(line):
        low = f"%address.{number}"
        return [f"  {low} = {found[2]} ptr {found[3]} to i32", f"  {found[1]} = zext i32 {low} to i64"]
    if found := PACKED.fullmatch(line):
        return [pad_pointers(*found.groups())]
    return None


def attributes(line):
    """The line without what is x86-64's alone, or None where it is none of attributes, or has others."""
    if not ATTRIBUTES.fullmatch(line):
        return None
    kept = OF_X86.sub("", line)
    return None if '"' in kept else [kept]


def kept(line):
    """The line, where it stays as it is, or None."""
    return [line] if any(form.fullmatch(line) for form in STAYS) else None


def retarget(text, triple, layout):
    """The module's text for the machine of this triple and layout."""
    words = layout.split("-")
    if "e" not in words or "i64:64" not in words:
        raise Refused(f"{triple} has another order of bytes, or aligns 64-bit numbers to less than 8 bytes")
    is_narrow = "p:32:32" in words
    made = []
    for number, line in enumerate(text.splitlines(), 1):
        if line.startswith("target datalayout = "):
            lines = [f'target datalayout = "{layout}"']
        elif line.startswith("target triple = "):
            lines = [f'target triple = "{triple}"']
        elif line.startswith("attributes "):
            lines = attributes(line)
        elif is_narrow:
            lines = narrow(line, number) or kept(line)
        else:
            lines = kept(line) or ([line] if any(form.fullmatch(line) for form in CHANGES) else None)
        if lines is None:
            raise Refused(f"line {number} is not understood: {line.strip()}")
        made += lines
    return "\n".join(made) + "\n"


def machine_of(clang, triple, flags=()):
    """What clang calls the machine of this triple, with these flags, and how it lays data out there."""
    words = ["--no-default-config", f"--target={triple}", *flags, "-S", "-emit-llvm", "-x", "c", "-", "-o", "-"]
    said = subprocess.run([clang, *words], input="int x;\n", capture_output=True, text=True, check=True).stdout
    return [re.search(rf'(?m)^target {word} = "(.*)"$', said)[1] for word in ("triple", "datalayout")]


def main():
    if len(sys.argv) != 4:
        sys.exit(__doc__)
    source, to, triple = sys.argv[1:]
    from module import CLANG
    try:
        made = retarget(pathlib.Path(source).read_text(encoding="utf-8"), *machine_of(CLANG, triple))
    except Refused as refused:
        sys.exit(f"retarget.py: {source}: {refused}")
    pathlib.Path(to).write_text(made, encoding="utf-8")


if __name__ == "__main__":
    main()
