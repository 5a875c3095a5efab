//! The file that parts spell.

use crate::error::{accepted, Error};
use crate::{raw, EntryKind, Kind, Memory, Part, PartKind};
use std::borrow::Cow;
use std::{error, fmt};

/// Says that parts spell no file that is accepted.
///
/// ```
/// use hunk::{Memory, Part};
///
/// let error = hunk::build(&[Part::hunk(1, Memory::Any), Part::end()]).unwrap_err();
/// assert_eq!((error.row, error.error.reason.as_str()), (1, "NoContent"));
/// assert_eq!(error.to_string(), "part 1 refused at byte 24: NoContent (19): a hunk ends without a CODE, DATA or BSS block");
/// ```
#[derive(Clone, Debug, PartialEq, Eq)]
pub struct BuildError {
    /// Why, and at which byte of the file that they would spell. `Strange` says that no file has such a part there.
    pub error: Error,
    /// The number of the part at fault, from 0 on, or that of all parts where they end too soon.
    pub row: u64,
}

impl fmt::Display for BuildError {
    fn fmt(&self, f: &mut fmt::Formatter<'_>) -> fmt::Result {
        write!(f, "part {} {}", self.row, self.error)
    }
}

impl error::Error for BuildError {}

/// How many longwords a size word may have.
const LONGS: u32 = 0x3FFF_FFFF;

impl<'a> Part<'a> {
    fn new(kind: PartKind, word: u32, value: u32) -> Part<'a> {
        Part { kind, word, value, content: Cow::Borrowed(&[]), offsets: Vec::new() }
    }

    /// A hunk of a load file begins, with so many longwords, of which a size word has the low 30 bits.
    ///
    /// ```
    /// use hunk::{Memory, Part};
    ///
    /// assert_eq!(Part::hunk(2, Memory::Chip).word, 0x4000_0002);
    /// ```
    #[must_use]
    pub fn hunk(longs: u32, memory: Memory) -> Part<'a> {
        let (top, attributes) = match memory {
            Memory::Any => (0, 0),
            Memory::Chip => (1, 0),
            Memory::Fast => (2, 0),
            Memory::Attributes(attributes) => (3, attributes),
        };
        Part::new(PartKind::Hunk, top << 30 | longs & LONGS, attributes)
    }

    /// A unit of an object file begins.
    ///
    /// ```
    /// assert_eq!(hunk::Part::unit(b"a").content[..], *b"a");
    /// ```
    #[must_use]
    pub fn unit(name: &'a [u8]) -> Part<'a> {
        Part { content: name.into(), ..Part::new(PartKind::Unit, 0, 0) }
    }

    /// A block with its content or its name. `word` may get flags, and `value` of CODE and DATA bits 30 and 31.
    ///
    /// ```
    /// use hunk::{Kind, Part};
    ///
    /// assert_eq!(Part::block(Kind::CODE, b"Nu").word, 0x3E9);
    /// ```
    #[must_use]
    pub fn block(kind: Kind, content: &'a [u8]) -> Part<'a> {
        Part { content: content.into(), ..Part::new(PartKind::Block, kind.0, 0) }
    }

    /// A BSS block of so many longwords, of which a size word has the low 30 bits.
    ///
    /// ```
    /// assert_eq!(hunk::Part::bss(4).value, 4);
    /// ```
    #[must_use]
    pub fn bss(longs: u32) -> Part<'a> {
        Part::new(PartKind::Block, Kind::BSS.0, longs & LONGS)
    }

    /// The END of a hunk.
    ///
    /// ```
    /// assert_eq!(hunk::Part::end().word, 0x3F2);
    /// ```
    #[must_use]
    pub fn end() -> Part<'a> {
        Part::new(PartKind::Block, Kind::END.0, 0)
    }

    /// Offsets with one target, in the block of relocations before it.
    ///
    /// ```
    /// assert_eq!(hunk::Part::group(1, &[2]).offsets, [2]);
    /// ```
    #[must_use]
    pub fn group(target: u32, offsets: &[u32]) -> Part<'a> {
        Part { offsets: offsets.into(), ..Part::new(PartKind::Group, target, 0) }
    }

    /// A symbol, in the SYMBOL block before it. An empty name gets a longword of 0.
    ///
    /// ```
    /// assert_eq!(hunk::Part::symbol(b"", 0).content.len(), 4);
    /// ```
    #[must_use]
    pub fn symbol(name: &'a [u8], value: u32) -> Part<'a> {
        Part { content: named(name, 0), ..Part::new(PartKind::Symbol, 0, value) }
    }

    /// An entry, in the EXT block before it. What its type does not have is 0 or empty.
    ///
    /// ```
    /// use hunk::{EntryKind, Part};
    ///
    /// assert_eq!(Part::entry(EntryKind::REF32, b"_f", 0, &[2]).word, 129);
    /// ```
    #[must_use]
    pub fn entry(kind: EntryKind, name: &'a [u8], value: u32, offsets: &[u32]) -> Part<'a> {
        Part { content: named(name, kind.0), offsets: offsets.into(), ..Part::new(PartKind::Entry, kind.0, value) }
    }
}

/// A name of an item whose word has this top byte: an empty one gets a longword where the word would be 0.
fn named(name: &[u8], top: u32) -> Cow<'_, [u8]> {
    if name.is_empty() && top == 0 {
        return Cow::Borrowed(&[0; 4]);
    }
    name.into()
}

/// The load file or object file that the parts spell, in the order of [`parts`](crate::parts). Those of a file give that file.
///
/// Content is filled up with zero bytes to whole longwords.
///
/// ```
/// use hunk::{Kind, Memory, Part};
///
/// // moveq #0,d0; rts
/// let data = hunk::build(&[Part::hunk(1, Memory::Any), Part::block(Kind::CODE, b"\x70\0Nu"), Part::end()])?;
/// assert_eq!(hunk::load_packed(&data, 0x21000, hunk::BUDGET)?[0], *b"\x70\0Nu");
/// # let data = data.as_slice();
/// assert_eq!(hunk::build(&hunk::parts(data)?)?, data);
/// # Ok::<(), Box<dyn std::error::Error>>(())
/// ```
///
/// # Errors
///
/// An error where no file has such parts, or the file that they spell is refused: the first fault, with its part.
pub fn build(parts: &[Part<'_>]) -> Result<Vec<u8>, BuildError> {
    let (rows, data) = packed(parts);
    // This is always enough.
    let mut text = vec![0; 20 + 16 * rows.len() + data.len()];
    let answer = raw::build(&rows, &data, &mut text);
    let row = answer.count;
    let written = accepted(answer).map_err(|error| BuildError { error: told(error), row })?.count;
    text.truncate(written as usize);
    Ok(text)
}

/// The refusal, whose meaning is that of building where another call has a meaning of its own.
fn told(error: Error) -> Error {
    if error.number == raw::STRANGE {
        return Error { meaning: "no file has such a part there".into(), ..error };
    }
    error
}

/// The rows of the parts, and the bytes in which their content and offsets stand one after the other.
fn packed(parts: &[Part<'_>]) -> (Vec<raw::Part>, Vec<u8>) {
    let mut data = Vec::new();
    let mut rows = Vec::with_capacity(parts.len());
    for it in parts {
        let content = data.len() as u64;
        data.extend_from_slice(&it.content);
        let offsets = data.len() as u64;
        data.extend(it.offsets.iter().flat_map(|offset| offset.to_be_bytes()));
        rows.push(raw::Part {
            what: it.kind as u32,
            word: it.word,
            value: it.value,
            reserved: 0,
            content,
            content_bytes: it.content.len() as u64,
            offsets,
            offset_count: it.offsets.len() as u64,
        });
    }
    (rows, data)
}
