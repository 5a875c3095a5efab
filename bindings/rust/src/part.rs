//! All that a file says, as one flat list of parts.

use crate::error::listed;
use crate::{raw, Error};
use std::borrow::Cow;

/// What a part is.
///
/// ```
/// use hunk::PartKind;
///
/// assert_eq!(PartKind::Block as u32, 3);
/// ```
#[derive(Clone, Copy, Debug, PartialEq, Eq, PartialOrd, Ord, Hash)]
pub enum PartKind {
    /// A hunk of a load file begins: its entry of the table.
    Hunk = 1,
    /// A unit of an object file begins.
    Unit = 2,
    /// A block of a hunk, its END too.
    Block = 3,
    /// Offsets with one target, in the relocation block before it.
    Group = 4,
    /// A symbol, in the SYMBOL block before it.
    Symbol = 5,
    /// An entry, in the EXT block before it.
    Entry = 6,
}

impl PartKind {
    fn of(number: u32) -> PartKind {
        match number {
            1 => PartKind::Hunk,
            2 => PartKind::Unit,
            3 => PartKind::Block,
            4 => PartKind::Group,
            5 => PartKind::Symbol,
            _ => PartKind::Entry,
        }
    }
}

/// A part of a file, with its bytes. What its kind does not have is 0 or empty.
///
/// ```
/// # let longs = [0x3F3_u32, 0, 1, 0, 0, 2, 0x3E9, 2, 0x4EF9_0000, 0, 0x3EC, 1, 0, 2, 0, 0x3F2];
/// # let data: Vec<u8> = longs.iter().flat_map(|it| it.to_be_bytes()).collect();
/// for it in hunk::parts(&data)? {
///     println!("{:?} {:#x}: {} bytes, {} offsets", it.kind, it.word, it.content.len(), it.offsets.len());
/// }
/// # Ok::<(), hunk::Error>(())
/// ```
#[derive(Clone, Debug, PartialEq, Eq)]
pub struct Part<'a> {
    /// What it is.
    pub kind: PartKind,
    /// The size word of a hunk, the word of a block, the target of a group, the top byte of a symbol's word, or the type of an
    /// entry.
    pub word: u32,
    /// The attributes of a hunk, or the value of a symbol or an entry. Of CODE and DATA bits 30 and 31 of the size word, of BSS the
    /// size word.
    pub value: u32,
    /// Its name or its data, with the padding.
    pub content: Cow<'a, [u8]>,
    /// The offsets of a group or an entry.
    pub offsets: Vec<u32>,
}

/// The parts of the object file that the bytes are, or of the load file that they begin with, in the order of the file.
///
/// Each hunk of a load file stands before its blocks, though its size word stands in the header. Counts, what ends a list, and the
/// rest of the header are no parts.
///
/// ```
/// use hunk::PartKind;
///
/// # let longs = [0x3F3_u32, 0, 1, 0, 0, 2, 0x3E9, 2, 0x4EF9_0000, 0, 0x3EC, 1, 0, 2, 0, 0x3F2];
/// # let data: Vec<u8> = longs.iter().flat_map(|it| it.to_be_bytes()).collect();
/// // A hunk, its CODE, a RELOC32 with a group of one offset, and END.
/// let parts = hunk::parts(&data)?;
/// assert_eq!((parts.len(), parts[3].kind, &parts[3].offsets[..]), (5, PartKind::Group, &[2][..]));
/// # Ok::<(), hunk::Error>(())
/// ```
///
/// # Errors
///
/// The first fault of the bytes.
pub fn parts(data: &[u8]) -> Result<Vec<Part<'_>>, Error> {
    Ok(listed::<raw::Part>(data)?.iter().map(|row| part_of(data, row)).collect())
}

fn part_of<'a>(data: &'a [u8], row: &raw::Part) -> Part<'a> {
    let offsets = run(data, row.offsets, 4 * row.offset_count).chunks_exact(4);
    Part {
        kind: PartKind::of(row.what),
        word: row.word,
        value: row.value,
        content: run(data, row.content, row.content_bytes).into(),
        offsets: offsets.map(|it| u32::from_be_bytes([it[0], it[1], it[2], it[3]])).collect(),
    }
}

/// So many bytes of the file. Where there are none, the place may be any.
fn run(data: &[u8], place: u64, count: u64) -> &[u8] {
    let place = if count == 0 { 0 } else { place as usize };
    &data[place..place + count as usize]
}
