//! binding LOAD OBJECTS WARNINGS: holds the package of bindings/rust to the conformance suite, vectors/load.tsv, objects.tsv and
//! warnings.tsv. Prints each row with another answer, and ends with status 1 where there is one.
//!
//! binding --show FILE..: prints what stands in the files by the package, in the words of `hunkinfo show` after `== FILE` for
//! each. It ends with status 1 where something does not stand at the place that its row has.

use hunk::{Block, Entry, EntryKind, Error, Fault, File, Finding, Front, Hunk, Kind, Memory, Part, Plain, Reference, Relocation,
    Spelling, Symbol, Warning, WarningKind, BUDGET};
use std::process::ExitCode;
use std::{env, fs};

/// A row of a table: its name, its bytes, and what is wanted.
struct Row {
    name: String,
    data: Vec<u8>,
    wanted: Vec<String>,
}

fn bytes_of(text: &str) -> Vec<u8> {
    let digits = text.as_bytes().chunks(2);
    digits.map(|it| u8::from_str_radix(std::str::from_utf8(it).unwrap(), 16).unwrap()).collect()
}

fn rows_of(path: &str) -> Vec<Row> {
    let text = fs::read_to_string(path).unwrap();
    let lines = text.lines().filter(|line| !line.starts_with('#'));
    let row = |line: &str| {
        let fields: Vec<&str> = line.split('\t').collect();
        Row {
            name: fields[1].into(),
            data: bytes_of(fields[2]),
            wanted: fields[3..].iter().map(|&it| it.into()).collect(),
        }
    };
    lines.map(row).collect()
}

/// An error in the words of the tables.
fn refused(error: &Error) -> Vec<String> {
    vec!["refused".into(), error.place.to_string(), error.number.to_string()]
}

fn load_answer(data: &[u8]) -> Vec<String> {
    match hunk::load_packed(data, 0x1000, BUDGET) {
        Ok(segments) => {
            let total: usize = segments.iter().map(<[u8]>::len).sum();
            vec!["accepted".into(), segments.len().to_string(), total.to_string()]
        }
        Err(error) => refused(&error),
    }
}

fn object_answer(data: &[u8]) -> Vec<String> {
    match hunk::read(data) {
        Ok(file) => vec!["accepted".into(), file.units().len().to_string(), file.findings().len().to_string()],
        Err(error) => refused(&error),
    }
}

/// What each row is answered, where that is not what is wanted.
fn wrong_rows(load: &[Row], objects: &[Row]) -> Vec<String> {
    // That one declares more than the budget.
    let load = load.iter().filter(|row| row.name != "header-alone");
    let load = load.map(|row| (row, load_answer(&row.data), row.wanted.clone()));
    // The library tells the kinds apart by the first longword.
    let objects = objects.iter().filter(|row| row.data.starts_with(&[0, 0, 3, 0xE7]));
    let objects = objects.map(|row| (row, object_answer(&row.data), row.wanted.clone()));
    let all = load.chain(objects).filter(|(_, answer, wanted)| answer != wanted);
    all.map(|(row, answer, wanted)| format!("{}: {answer:?} where {wanted:?} is wanted", row.name)).collect()
}

/// A warning in the words of the table.
fn warning_text(it: &Warning) -> String {
    let numbers = [it.place, it.hunk, it.kind as u64, it.offset.into(), it.target.into(), it.value.into(), it.other.into()];
    numbers.map(|number| number.to_string()).join(" ")
}

/// The rows of warnings.tsv with other warnings.
fn wrong_warnings(path: &str) -> Vec<String> {
    let text = fs::read_to_string(path).unwrap();
    let rows = text.lines().filter(|line| !line.starts_with('#')).map(|line| line.split('\t').collect::<Vec<_>>());
    let answer = |digits: &str| match hunk::read(&bytes_of(digits)) {
        Ok(file) => file.warnings().iter().map(warning_text).collect::<Vec<_>>().join("; "),
        Err(error) => error.to_string(),
    };
    let all = rows.map(|row| (row[0].to_string(), answer(row[1]), row[2].to_string()));
    let wrong = all.filter(|(_, answer, wanted)| answer != wanted);
    wrong.map(|(name, answer, wanted)| format!("{name}: {answer} where {wanted} is wanted")).collect()
}

/// Loads a file into RAM of an emulator, and lists its symbols, as the README shows it.
fn load_ram<'a>(file: &'a [u8], base: u32, ram: &mut [u8], names: &mut Vec<(u32, &'a [u8])>) -> Result<usize, Error> {
    let bytes = hunk::load_into(file, base, &mut ram[base as usize..])?;
    for symbol in hunk::read(file)?.symbols() {
        names.push((symbol.value, symbol.name));
    }
    Ok(bytes)
}

/// What the calls for other spellings are not as they must be, of files without END, with a short block: one whose offset is 0, and
/// one whose target is no hunk.
fn wrong_spellings(one: &[u8]) -> Vec<String> {
    let code = bytes_of("000003f30000000000000001000000000000000000000002000003e9000000020000000000000000");
    let wide = [code, bytes_of("000003fc0001000000000000")].concat();
    let bad = [&wide[..44], &bytes_of("0001000500000000")].concat();
    let (plain, as_is) = (Plain::of(&wide), Plain::of(one));
    let spelled = Spelling { bytes: 64, short_blocks: 1, ends: 1 };
    let checks = [
        ("spelling", hunk::spelling(&wide) == spelled && plain.spelling() == spelled && !spelled.is_plain()),
        ("plain", plain.bytes()[40..] == bytes_of("000003ec00000001000000000000000000000000000003f2")),
        ("plain of a plain file", as_is.bytes() == one && as_is.spelling().is_plain()),
        ("wide", plain.read().unwrap().relocations()[0].offset == 0 && plain.read().unwrap().bytes().len() == 64),
        ("wide load", plain.load_packed(0x21000, BUDGET).unwrap().into_memory() == bytes_of("0002100000000000")),
        ("wide refusal", Plain::of(&bad).read().unwrap_err().to_string()
            == "refused at byte 46: BadTarget (23): the target of a relocation is no hunk of the file"),
        ("no wide load", Plain::of(&bad).load_packed(0, BUDGET).unwrap_err().place == 46),
        ("input place", plain.input_place(60) == wide.len() as u64),
    ];
    checks.iter().filter(|(_, holds)| !holds).map(|(name, _)| format!("{name}: another answer")).collect()
}

/// What stands before a fault, where that is not as it must be: of two hunks of 8 bytes, CODE with a symbol and END, and DATA
/// before its relocation of hunk 2; of less of them; and of a whole file.
fn wrong_fronts(one: &[u8]) -> Vec<String> {
    let code = "000003f3000000000000000200000000000000010000000240000002000003e9000000024e714e714e714e75";
    let rest = "000003f0000000015f6d00000000000400000000000003f2000003ea0000000100000007000003ec000000010000000200000000";
    let broken = [bytes_of(code), bytes_of(rest)].concat();
    let (front, cut) = (Front::of(&broken).unwrap(), Front::of(&broken[..75]).unwrap());
    let (file, less) = (front.read().unwrap(), cut.read().unwrap());
    let first = Hunk { unit: 0, number: 0, size: 8, memory: Memory::Any, kind: Some(Kind::CODE) };
    let second = Hunk { number: 1, memory: Memory::Chip, kind: Some(Kind::DATA), ..first };
    let kinds: Vec<Kind> = file.blocks().iter().map(|it| it.kind).collect();
    let closed = [&broken[..68], &bytes_of("000003eb00000000000003f2")].concat();
    // CODE with a relocation of hunk 2, END, and a hunk with a name alone.
    let unit = bytes_of("000003e70000000161000000000003e9000000014e754e75000003ec000000010000000200000000");
    let object = [unit, bytes_of("00000000000003f2000003e8000000016200000000")].concat();
    let object_front = Front::of(&object).unwrap();
    let begun = object_front.read().unwrap();
    let (code, none) = (Hunk { size: 4, ..first }, Hunk { number: 1, size: 0, kind: None, ..first });
    let checks = [
        ("front", front.place() == 80 && front.bytes() == [&broken[..80], &bytes_of("000003f2")].concat()),
        ("blocks of a front", kinds == [Kind::CODE, Kind::SYMBOL, Kind::END, Kind::DATA]),
        ("hunks of a front", file.hunks() == [first, second] && file.bytes() == &broken[..80]),
        ("no content", less.hunks() == [first, Hunk { kind: None, ..second }] && less.blocks().len() == 3),
        ("what closes it", cut.place() == 68 && cut.bytes() == closed && less.bytes() == &broken[..68]),
        ("front of an object file", object_front.place() == 60 && object_front.bytes()[60..] == closed[68..]),
        ("its hunks", begun.hunks() == [code, none] && begun.units()[0].hunks == 2 && begun.blocks().len() == 4),
        ("its findings", begun.findings().is_empty() && begun.relocations().len() == 1),
        ("no front", Front::of(&broken[..27]).is_none() && Front::of(b"text").is_none()),
        ("front of a file", Front::of(one).unwrap().place() == 36 && Front::of(one).unwrap().bytes() == one),
    ];
    checks.iter().filter(|(_, holds)| !holds).map(|(name, _)| format!("{name}: another answer")).collect()
}

/// Which lists of a file were asked for: `made` in how it is displayed.
fn asked(file: &File) -> usize {
    format!("{file:?}").matches(": made").count()
}

/// What is not as it must be where a list is asked for: that is done once, and not before.
fn wrong_lists(load: &[Row]) -> Vec<String> {
    let data = &load.iter().find(|row| row.name == "two-hunks").unwrap().data;
    let (file, same) = (hunk::read(data).unwrap(), hunk::read(data).unwrap());
    let before = asked(&file);
    let (first, again) = (file.relocations().as_ptr(), file.relocations().as_ptr());
    let copy = file.clone();
    let segments = hunk::load_packed(data, 0x1000, BUDGET).unwrap();
    let lists: Vec<Vec<u8>> = segments.clone().into();
    let (base, second) = (segments[0].as_ptr(), segments[1].as_ptr());
    // A header of 70 hunks of no bytes, more than there is room for at once.
    let many = [vec![0x3F3, 0, 70, 0, 69], vec![0; 70], [0x3EB, 0, 0x3F2].repeat(70)].concat();
    let many: Vec<u8> = many.iter().flat_map(|it: &u32| it.to_be_bytes()).collect();
    let checks = [
        ("lists before they are asked for", before == 0),
        ("a list that was asked for", asked(&file) == 1 && first == again),
        ("the same file", file == same && asked(&same) == 0 && file != hunk::read(&many).unwrap()),
        ("a copy", copy == file && copy.relocations() == file.relocations()),
        ("a list of another thread", std::thread::scope(|it| it.spawn(|| file.blocks().len()).join().unwrap()) == 5),
        ("hunks in one memory", second == base.wrapping_add(segments[0].len()) && segments.len() == 2),
        ("each hunk", segments.iter().eq(&lists) && segments.iter().len() == 2 && (&segments).into_iter().count() == 2),
        ("many hunks", hunk::table(&many, BUDGET).unwrap().len() == 70 && hunk::load_packed(&many, 0, BUDGET).unwrap().len() == 70),
        ("many rows", hunk::read(&many).unwrap().blocks().len() == 140),
    ];
    checks.iter().filter(|(_, holds)| !holds).map(|(name, _)| format!("{name}: another answer")).collect()
}

/// What other calls, and the texts of errors, are not as they must be.
fn wrong_calls(load: &[Row], objects: &[Row]) -> Vec<String> {
    let data = |rows: &[Row], name: &str| rows.iter().find(|row| row.name == name).unwrap().data.clone();
    let (one, two, symbol) = (data(load, "one-hunk"), data(load, "two-hunks"), data(load, "symbol"));
    let findings = data(objects, "two-findings");
    let code = bytes_of("4e754e71");
    let mut ram = [0xAA; 8];
    let mut names = Vec::new();
    let text = |result: Result<usize, Error>| result.unwrap_err().to_string();
    // The offset is the third longword of the relocation block, which stands after a unit of 2 longwords and CODE of 3.
    let finding = |place, fault| Finding { place, unit: 0, hunk: 0, offset: 2, fault };
    let mut apart = [0xAA; 24];
    let places = hunk::load_at(&two, &[0x1000C, 0x10001], 0x10000, &mut apart);
    let overlap = hunk::load_at(&two, &[0x10000, 0x10004], 0x10000, &mut [0; 8]);
    let no_place = hunk::load_at(&two, &[0x10011, 0x10000], 0x10000, &mut [0; 24]).map(|_| 0);
    let row = Hunk { unit: 0, number: 0, size: 4, memory: Memory::Any, kind: None };
    let read = hunk::read(&one).unwrap();
    let object = bytes_of("000003e700000000400003eb00000002000003f2800003ea00000000000003f2");
    // A hunk of two longwords, the one at offset 1 relocated.
    let content = bytes_of("000003f30000000000000001000000000000000000000002000003e9000000020000000000000000");
    let odd_file = [content, bytes_of("000003ec00000001000000000000000100000000000003f2")].concat();
    let odd = hunk::read(&odd_file).unwrap();
    let (chip, fast) = (Hunk { size: 8, memory: Memory::Chip, kind: Some(Kind::BSS), ..row }, Memory::Fast);
    let checks = [
        ("strip", hunk::strip(&symbol) == Ok(one.clone())),
        ("table", hunk::table(&one[..24], BUDGET) == Ok(vec![row])),
        ("abi", hunk::abi() == hunk::ABI),
        ("hunks", read.hunks() == [Hunk { kind: Some(Kind::CODE), ..row }]),
        ("object", hunk::read(&object).unwrap().hunks()[0] == chip && hunk::read(&object).unwrap().hunks()[1].memory == fast),
        ("blocks", read.blocks_of(&row).len() == 2 && read.blocks()[0].content == code && read.bytes() == one),
        ("debug", format!("{:?}", hunk::read(&symbol).unwrap().symbols()[0]).ends_with(", value: 0, name: b\"_m\" }")),
        ("meaning", hunk::read(&one[..9]).unwrap_err().meaning.len() > "Truncated".len()),
        ("bases", hunk::load(&two, &[0x10000, 0x20000], BUDGET).unwrap()[0] == bytes_of("4ef9000200044e71")),
        ("no base", text(hunk::load(&two, &[0x10000], BUDGET).map(|it| it.len()))
            == "refused at byte 28: NoBase (29) hunk 1: a hunk has no base, or would pass the address 2^32"),
        ("budget", text(hunk::load_packed(&one, 0, 3).map(|it| it.len()))
            == "refused at byte 20: Budget (27): the hunks declare more bytes than the budget allows"),
        ("no room", text(hunk::load_into(&one, 0, &mut ram[..3]))
            == "refused at byte 24: NoRoom (32): the array of the caller has too few elements"),
        ("refused memory", ram == [0xAA; 8]),
        ("into", load_ram(&symbol, 2, &mut ram, &mut names) == Ok(4)),
        ("names", names == [(0, &b"_m"[..])]),
        ("memory", ram[2..6] == code && ram[..2] == [0xAA; 2] && ram[6..] == [0xAA; 2]),
        ("places", places == Ok(12) && apart[..] == bytes_of("aa12345678aaaaaaaaaaaaaa4ef9000100054e71aaaaaaaa")),
        ("overlap", overlap == Ok(12)),
        ("no place", text(no_place)
            == "refused at byte 28: NoBase (29) hunk 0: a hunk has no base, or would pass the address 2^32"),
        ("warnings", matches!(odd.warnings()[..], [Warning { place: 52, kind: WarningKind::OddOffset, offset: 1, .. }])),
        ("no warnings", read.warnings().is_empty() && hunk::read(&object).unwrap().warnings().is_empty()),
        ("warnings of a front", Front::of(&odd_file).unwrap().read().unwrap().warnings().is_empty()),
        ("parts", hunk::parts(&symbol).unwrap().iter().map(|it| it.kind as u32).eq([1, 3, 3, 5, 3])),
        ("a part", hunk::parts(&symbol).unwrap()[3].content[..] == *b"_m\0\0"),
        ("a group", hunk::parts(&two).unwrap()[3].offsets == [2]),
        ("no parts", text(hunk::parts(&one[..9]).map(|it| it.len()))
            == "refused at byte 8: Truncated (26): the input ends too soon"),
        ("findings", hunk::check(&findings) == Ok(vec![finding(32, Fault::BadTarget), finding(32, Fault::OutsideHunk)])),
    ];
    checks.iter().filter(|(_, holds)| !holds).map(|(name, _)| format!("{name}: another answer")).collect()
}

/// What is built otherwise than it must be.
fn wrong_builds(rows: &[Row]) -> Vec<String> {
    let made = |data: &[u8]| hunk::parts(data).map(|parts| hunk::build(&parts).unwrap());
    let accepted = |row: &&Row| hunk::parts(&row.data).is_ok();
    let same = |row: &&Row| row.data.starts_with(&made(&row.data).unwrap());
    let (all, wrong) = (rows.iter().filter(accepted), rows.iter().filter(accepted).filter(|row| !same(row)));
    let mut said: Vec<String> = wrong.map(|row| format!("{}: built otherwise", row.name)).collect();
    let text = |parts: &[Part]| hunk::build(parts).unwrap_err().to_string();
    // A hunk of two longwords, with an offset of which the longword runs past its end.
    let code = [Part::hunk(2, Memory::Any), Part::block(Kind::CODE, &[0; 7]), Part::block(Kind::RELOC32, &[])];
    let group = |offsets: &[u32]| [&code[..], &[Part::group(0, offsets), Part::end()]].concat();
    let fast = Part::hunk(1, Memory::Attributes(7));
    let entry = Part::entry(EntryKind::DEF, b"_f", 4, &[]);
    let checks = [
        ("files that are built", all.count() > 5),
        ("filled up", hunk::build(&group(&[4])).unwrap()[32..40] == [0; 8]),
        ("an offset", text(&group(&[4, 5]))
            == "part 3 refused at byte 56: BadOffset (24): a relocated longword runs past the end of its hunk"),
        ("no part", text(&[]) == "part 0 refused at byte 0: Truncated (26): the input ends too soon"),
        ("a part elsewhere", text(&[entry.clone()])
            == "part 0 refused at byte 0: Strange (33): no file has such a part there"),
        ("its meaning", hunk::build(&[entry]).unwrap_err().error.meaning == "no file has such a part there"),
        ("attributes", (fast.word, fast.value) == (0xC000_0001, 7)),
        ("names", Part::symbol(b"", 0).content.len() == 4 && Part::entry(EntryKind::REF8, b"", 0, &[]).content.is_empty()),
        ("size words", (Part::hunk(u32::MAX, Memory::Any).word, Part::bss(u32::MAX).value) == (0x3FFF_FFFF, 0x3FFF_FFFF)),
    ];
    said.extend(checks.iter().filter(|(_, holds)| !holds).map(|(name, _)| format!("{name}: another answer")));
    said
}

fn text_of(name: &[u8]) -> String {
    let text = |&it: &u8| match it {
        b' '..=b'[' | b']'..=b'~' => char::from(it).to_string(),
        _ => format!("\\x{it:02x}"),
    };
    name.iter().map(text).collect()
}

/// The rows of a file that are still to be shown.
struct Shown<'f, 'a> {
    file: &'f File<'a>,
    symbols: std::slice::Iter<'f, Symbol<'a>>,
    relocations: std::slice::Iter<'f, Relocation>,
    entries: std::slice::Iter<'f, Entry<'a>>,
}

impl Shown<'_, '_> {
    fn block(&mut self, block: &Block) {
        let flag = |has, name| if has { name } else { "" };
        let (advisory, chip) = (flag(block.flags.advisory, " advisory"), flag(block.flags.chip, " chip"));
        let memory = format!("{chip}{}", flag(block.flags.fast, " fast"));
        let name = format!("{:?}", block.kind);
        match block.kind {
            Kind::NAME => {
                let text = block.content.split(|&it| it == 0).next().unwrap();
                println!("  NAME{advisory}{memory} {}", text_of(text));
            }
            Kind::CODE | Kind::DATA | Kind::BSS => println!("  {name}{advisory}{memory} {} bytes", block.memory),
            Kind::DEBUG => println!("  DEBUG{advisory}{memory} {} bytes", block.content.len()),
            Kind::END => println!("  END{advisory}{memory}"),
            _ if name.starts_with("Kind") => println!("  ADVISORY {} {} bytes{memory}", block.kind.0, block.content.len()),
            _ => println!("  {name}{advisory}{memory} {}", block.items),
        }
        for _ in 0..block.items {
            self.item(block.kind);
        }
    }

    /// The next item of a block of this kind.
    fn item(&mut self, kind: Kind) {
        match kind {
            Kind::SYMBOL => {
                let it = self.symbols.next().unwrap();
                println!("    0x{:08x} {}", it.value, text_of(it.name));
            }
            Kind::EXT => self.entry(),
            _ => {
                let it = self.relocations.next().unwrap();
                println!("    {} 0x{:08x}", it.target, it.offset);
            }
        }
    }

    fn entry(&mut self) {
        let it = self.entries.next().unwrap();
        let references = self.file.references_of(it);
        let (kind, count, name) = (it.kind, references.len(), text_of(it.name));
        match kind {
            _ if kind.is_definition() => println!("    {kind:?} 0x{:08x} {name}", it.value),
            EntryKind::COMMON | EntryKind::RELCOMMON => println!("    {kind:?} {} {count} {name}", it.value),
            _ => println!("    {kind:?} {count} {name}"),
        }
        for reference in references {
            println!("      0x{:08x}", reference.offset);
        }
    }

    fn hunk(&mut self, hunk: &Hunk) {
        let memory = match hunk.memory {
            _ if self.file.is_object() => String::new(),
            Memory::Any => " any".into(),
            Memory::Chip => " chip".into(),
            Memory::Fast => " fast".into(),
            Memory::Attributes(word) => format!(" attributes 0x{word:08x}"),
        };
        println!("hunk {} {} bytes{memory}", hunk.number, hunk.size);
        for block in self.file.blocks_of(hunk) {
            self.block(block);
        }
    }
}

fn show(file: &File, len: usize) {
    let (symbols, relocations, entries) = (file.symbols().iter(), file.relocations().iter(), file.entries().iter());
    let mut shown = Shown { file, symbols, relocations, entries };
    if !file.is_object() {
        let total: u64 = file.hunks().iter().map(|it| it.size).sum();
        println!("load file {} hunks {total} bytes", file.hunks().len());
        file.hunks().iter().for_each(|it| shown.hunk(it));
        if file.bytes().len() < len {
            println!("rest {} bytes", len - file.bytes().len());
        }
        return;
    }
    println!("object file {} units", file.units().len());
    for (number, unit) in (0..).zip(file.units()) {
        println!("unit {number} {}", text_of(unit.name));
        file.hunks().iter().filter(|it| it.unit == number).for_each(|it| shown.hunk(it));
    }
}

/// The bytes at the offsets of a kind with this name.
fn width_of(name: &str) -> u32 {
    match name.trim_start_matches(|it: char| it.is_alphabetic()) {
        "16" => 2,
        "8" => 1,
        _ => 4,
    }
}

/// Whether each row stands at its place of the file, and has the width of its kind.
fn stands(file: &File) -> bool {
    let bytes = |place: u64| &file.bytes()[place as usize..];
    let long = |place: u64| u32::from_be_bytes(bytes(place)[..4].try_into().unwrap());
    let named = |place: u64, name: &[u8]| bytes(place).starts_with(name);
    let entry = |it: &Reference| file.entries()[it.entry as usize].kind;
    file.relocations().iter().all(|it| long(it.place) == it.offset && it.width == width_of(&format!("{:?}", it.kind)))
        && file.references().iter().all(|it| long(it.place) == it.offset && it.width == width_of(&format!("{:?}", entry(it))))
        && file.findings().iter().all(|it| long(it.place) == it.offset)
        && file.symbols().iter().all(|it| named(it.place + 4, it.name))
        && file.entries().iter().all(|it| named(it.place + 4, it.name) && long(it.place) >> 24 == it.kind.0)
        && file.units().iter().all(|it| named(it.place + 8, it.name) && long(it.place) == 0x3E7)
        && file.blocks().iter().all(|it| it.bytes.as_ptr() == bytes(it.place).as_ptr() && long(it.place) << 3 == it.kind.0 << 3)
}

fn show_files(paths: &[String]) -> ExitCode {
    let mut all_stand = true;
    for path in paths {
        let data = fs::read(path).unwrap();
        println!("== {path}");
        match hunk::read(&data) {
            Ok(file) => {
                show(&file, data.len());
                all_stand = all_stand && stands(&file);
            }
            // What the error says after that is what hunkinfo says on standard error.
            Err(error) => println!("refused at byte {}: {} ({})", error.place, error.reason, error.number),
        }
    }
    ExitCode::from(u8::from(!all_stand))
}

fn main() -> ExitCode {
    let paths: Vec<String> = env::args().skip(1).collect();
    if paths[0] == "--show" {
        return show_files(&paths[1..]);
    }
    let (load, objects) = (rows_of(&paths[0]), rows_of(&paths[1]));
    let mut wrong = wrong_rows(&load, &objects);
    wrong.extend(wrong_calls(&load, &objects));
    wrong.extend(wrong_lists(&load));
    wrong.extend([&load, &objects].iter().flat_map(|rows| wrong_builds(rows)));
    let one = &load.iter().find(|row| row.name == "one-hunk").unwrap().data;
    wrong.extend(wrong_spellings(one));
    wrong.extend(wrong_fronts(one));
    wrong.extend(wrong_warnings(&paths[2]));
    for line in &wrong {
        println!("{line}");
    }
    ExitCode::from(u8::from(!wrong.is_empty()))
}
