//! The calls and structs of `hunk.h` that this package uses. A length has 64 bits on every machine.
//!
//! What is `unsafe` stands here, and in `lazy.rs`. Each call below hands over slices with their own lengths, and writes to no other memory:
//! what `hunk.h` asks of a caller. Which library is linked, `build.rs` says.

#![allow(unsafe_code)]

use crate::Relocation;

pub const OK: u32 = 0;
pub const NO_BASE: u32 = 29;
pub const OUT_OF_MEMORY: u32 = 31;
pub const NO_ROOM: u32 = 32;
pub const STRANGE: u32 = 33;

#[repr(C)]
pub struct Answer {
    pub number: u32,
    pub hunk: u32,
    pub place: u64,
    pub count: u64,
}

#[repr(C)]
#[derive(Clone, Copy, Default)]
pub struct Row {
    pub word: u32,
    pub extra: u32,
    pub bytes: u32,
    pub memory: u32,
}

#[repr(C)]
#[derive(Clone, Default)]
pub struct Finding {
    pub place: u64,
    pub unit: u64,
    pub hunk: u64,
    pub offset: u32,
    pub fault: u32,
    pub reserved: u64,
}

#[repr(C)]
#[derive(Clone, Default)]
pub struct Warning {
    pub place: u64,
    pub hunk: u64,
    pub kind: u32,
    pub offset: u32,
    pub target: u32,
    pub value: u32,
    pub other: u32,
    pub reserved: u32,
}

#[repr(C)]
#[derive(Clone, Default)]
pub struct Unit {
    pub place: u64,
    pub name: u64,
    pub name_bytes: u64,
    pub hunks: u64,
    pub reserved: u64,
}

#[repr(C)]
#[derive(Clone, Default)]
pub struct Block {
    pub place: u64,
    pub bytes: u64,
    pub unit: u64,
    pub hunk: u64,
    pub content: u64,
    pub content_bytes: u64,
    pub memory: u64,
    pub items: u64,
    pub kind: u32,
    pub flags: u32,
    pub reserved: u64,
}

#[repr(C)]
#[derive(Clone, Default)]
pub struct Symbol {
    pub place: u64,
    pub unit: u64,
    pub hunk: u64,
    pub name: u64,
    pub name_bytes: u64,
    pub value: u32,
    pub reserved: u32,
}

#[repr(C)]
#[derive(Clone, Default)]
pub struct Entry {
    pub place: u64,
    pub unit: u64,
    pub hunk: u64,
    pub name: u64,
    pub name_bytes: u64,
    pub references: u64,
    pub value: u32,
    pub kind: u32,
    pub reserved: u64,
}

#[repr(C)]
#[derive(Clone, Default)]
pub struct Reference {
    pub entry: u64,
    pub place: u64,
    pub offset: u32,
    pub width: u32,
    pub reserved: u64,
}

#[repr(C)]
#[derive(Clone, Default)]
pub struct Part {
    pub what: u32,
    pub word: u32,
    pub value: u32,
    pub reserved: u32,
    pub content: u64,
    pub content_bytes: u64,
    pub offsets: u64,
    pub offset_count: u64,
}

#[repr(C)]
#[derive(Clone, Default)]
pub struct Spelling {
    pub bytes: u64,
    pub short_blocks: u64,
    pub ends: u64,
    pub reserved: u64,
}

extern "C" {
    fn hunk_abi() -> u32;
    fn hunk_table(bytes: *const u8, bytes_len: u64, budget: u64, rows: *mut Row, rows_len: u64) -> Answer;
    fn hunk_load(
        bytes: *const u8,
        bytes_len: u64,
        bases: *const u32,
        bases_len: u64,
        memory: *mut u8,
        memory_len: u64,
    ) -> Answer;
    fn hunk_load_at(
        bytes: *const u8,
        bytes_len: u64,
        bases: *const u32,
        bases_len: u64,
        start: u32,
        memory: *mut u8,
        memory_len: u64,
    ) -> Answer;
    fn hunk_load_packed(bytes: *const u8, bytes_len: u64, base: u32, memory: *mut u8, memory_len: u64) -> Answer;
    fn hunk_check(bytes: *const u8, bytes_len: u64, rows: *mut Finding, rows_len: u64) -> Answer;
    fn hunk_units(bytes: *const u8, bytes_len: u64, rows: *mut Unit, rows_len: u64) -> Answer;
    fn hunk_blocks(bytes: *const u8, bytes_len: u64, rows: *mut Block, rows_len: u64) -> Answer;
    fn hunk_symbols(bytes: *const u8, bytes_len: u64, rows: *mut Symbol, rows_len: u64) -> Answer;
    fn hunk_relocations(bytes: *const u8, bytes_len: u64, rows: *mut Relocation, rows_len: u64) -> Answer;
    fn hunk_entries(bytes: *const u8, bytes_len: u64, rows: *mut Entry, rows_len: u64) -> Answer;
    fn hunk_references(bytes: *const u8, bytes_len: u64, rows: *mut Reference, rows_len: u64) -> Answer;
    fn hunk_parts(bytes: *const u8, bytes_len: u64, rows: *mut Part, rows_len: u64) -> Answer;
    fn hunk_build(
        rows: *const Part,
        rows_len: u64,
        bytes: *const u8,
        bytes_len: u64,
        text: *mut u8,
        text_len: u64,
    ) -> Answer;
    fn hunk_warnings(
        bytes: *const u8,
        bytes_len: u64,
        room: *mut u32,
        room_len: u64,
        rows: *mut Warning,
        rows_len: u64,
    ) -> Answer;
    fn hunk_strip(bytes: *const u8, bytes_len: u64, text: *mut u8, text_len: u64) -> Answer;
    fn hunk_spelling_of(bytes: *const u8, bytes_len: u64) -> Spelling;
    fn hunk_plain(bytes: *const u8, bytes_len: u64, text: *mut u8, text_len: u64) -> Answer;
    fn hunk_input_place(bytes: *const u8, bytes_len: u64, place: u64) -> u64;
    fn hunk_front(bytes: *const u8, bytes_len: u64, text: *mut u8, text_len: u64) -> Answer;
    fn hunk_reason(number: u32, text: *mut u8, text_len: u64) -> Answer;
    fn hunk_reason_text(number: u32, text: *mut u8, text_len: u64) -> Answer;
}

/// A call that writes rows of a file.
type Lists<R> = unsafe extern "C" fn(*const u8, u64, *mut R, u64) -> Answer;

/// A row of which a file has a list, and the call that writes that.
pub trait Listed {
    const CALL: Lists<Self>;
}

/// Names the call for each kind of row.
macro_rules! listed {
    ($($row:ident by $call:ident),*) => {
        $(impl Listed for $row {
            const CALL: Lists<Self> = $call;
        })*
    };
}

listed!(Finding by hunk_check, Unit by hunk_units, Block by hunk_blocks, Symbol by hunk_symbols, Relocation by hunk_relocations,
    Entry by hunk_entries, Reference by hunk_references, Part by hunk_parts);

/// A length, as the calls take it.
fn length<T>(of: &[T]) -> u64 {
    of.len() as u64
}

pub fn abi() -> u32 {
    // SAFETY: it takes nothing.
    unsafe { hunk_abi() }
}

/// The rows of the file that the bytes are, or begin with, where they are at most so many; and what the call answers.
pub fn list<R: Listed>(data: &[u8], most: usize) -> (Vec<R>, Answer) {
    let mut rows = Vec::with_capacity(most);
    // SAFETY: the pointers come with the lengths of what they point to. The rows are structs of numbers, as `hunk.h` has them.
    let answer = unsafe { R::CALL(data.as_ptr(), length(data), rows.as_mut_ptr(), most as u64) };
    if answer.number == OK {
        // SAFETY: it has written as many rows as it counts, at most those for which there is room.
        unsafe { rows.set_len(answer.count as usize) };
    }
    (rows, answer)
}

pub fn build(rows: &[Part], data: &[u8], text: &mut [u8]) -> Answer {
    let (to, len) = (text.as_mut_ptr(), length(text));
    // SAFETY: as in `list`.
    unsafe { hunk_build(rows.as_ptr(), length(rows), data.as_ptr(), length(data), to, len) }
}

pub fn warnings(data: &[u8], room: &mut [u32], rows: &mut [Warning]) -> Answer {
    let (to, len) = (room.as_mut_ptr(), length(room));
    // SAFETY: as in `list`, and the room is the caller's own, too.
    unsafe { hunk_warnings(data.as_ptr(), length(data), to, len, rows.as_mut_ptr(), length(rows)) }
}

pub fn table(data: &[u8], budget: u64, rows: &mut [Row]) -> Answer {
    // SAFETY: as in `list`.
    unsafe { hunk_table(data.as_ptr(), length(data), budget, rows.as_mut_ptr(), length(rows)) }
}

/// The hunks in memory of just so many bytes, which the call writes: to clear them first takes as long. And what it answers.
pub fn load(data: &[u8], bases: &[u32], bytes: usize) -> (Vec<u8>, Answer) {
    let mut memory = Vec::with_capacity(bytes);
    let to = memory.as_mut_ptr();
    // SAFETY: the pointers come with the lengths of what they point to. The memory is written, and not read.
    let answer = unsafe { hunk_load(data.as_ptr(), length(data), bases.as_ptr(), length(bases), to, bytes as u64) };
    (written(memory, &answer), answer)
}

/// The same for hunks one after the other from the address `base` on.
pub fn load_packed(data: &[u8], base: u32, bytes: usize) -> (Vec<u8>, Answer) {
    let mut memory = Vec::with_capacity(bytes);
    // SAFETY: as in `load`.
    let answer = unsafe { hunk_load_packed(data.as_ptr(), length(data), base, memory.as_mut_ptr(), bytes as u64) };
    (written(memory, &answer), answer)
}

/// The bytes that a call has written to this memory; of one that has refused none.
fn written(mut memory: Vec<u8>, answer: &Answer) -> Vec<u8> {
    if answer.number == OK {
        // SAFETY: it has written as many bytes as it counts, at most those for which there is room.
        unsafe { memory.set_len(answer.count as usize) };
    }
    memory
}

pub fn load_into(data: &[u8], base: u32, memory: &mut [u8]) -> Answer {
    // SAFETY: as in `load`.
    unsafe { hunk_load_packed(data.as_ptr(), length(data), base, memory.as_mut_ptr(), length(memory)) }
}

pub fn load_at(data: &[u8], bases: &[u32], start: u32, memory: &mut [u8]) -> Answer {
    let (to, len) = (memory.as_mut_ptr(), length(memory));
    // SAFETY: as in `load`.
    unsafe { hunk_load_at(data.as_ptr(), length(data), bases.as_ptr(), length(bases), start, to, len) }
}

pub fn strip(data: &[u8], text: &mut [u8]) -> Answer {
    // SAFETY: as in `load`.
    unsafe { hunk_strip(data.as_ptr(), length(data), text.as_mut_ptr(), length(text)) }
}

pub fn spelling_of(data: &[u8]) -> Spelling {
    // SAFETY: as in `load`.
    unsafe { hunk_spelling_of(data.as_ptr(), length(data)) }
}

pub fn plain(data: &[u8], text: &mut [u8]) -> Answer {
    // SAFETY: as in `load`.
    unsafe { hunk_plain(data.as_ptr(), length(data), text.as_mut_ptr(), length(text)) }
}

pub fn input_place(data: &[u8], place: u64) -> u64 {
    // SAFETY: as in `load`.
    unsafe { hunk_input_place(data.as_ptr(), length(data), place) }
}

pub fn front(data: &[u8], text: &mut [u8]) -> Answer {
    // SAFETY: as in `load`.
    unsafe { hunk_front(data.as_ptr(), length(data), text.as_mut_ptr(), length(text)) }
}

pub fn reason(number: u32, text: &mut [u8]) -> Answer {
    // SAFETY: as in `load`.
    unsafe { hunk_reason(number, text.as_mut_ptr(), length(text)) }
}

pub fn reason_text(number: u32, text: &mut [u8]) -> Answer {
    // SAFETY: as in `load`.
    unsafe { hunk_reason_text(number, text.as_mut_ptr(), length(text)) }
}
