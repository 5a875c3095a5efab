//! What is suspicious in load files that are accepted.

use crate::error::rows;
use crate::{raw, Error, File};

/// A kind of warning: what each means, and what to do about it, is on the page `FORMAT.md` of the project.
///
/// ```
/// use hunk::WarningKind;
///
/// assert_eq!(format!("{:?}", WarningKind::OddOffset), "OddOffset");
/// ```
#[derive(Clone, Copy, Debug, PartialEq, Eq, PartialOrd, Ord, Hash)]
#[non_exhaustive]
pub enum WarningKind {
    /// The offset of a relocation is odd.
    OddOffset = 1,
    /// A longword is relocated more than once.
    Twice = 2,
    /// Two relocated longwords overlap.
    Overlap = 3,
    /// A longword of a BSS hunk is relocated.
    InBss = 4,
    /// A relocated longword leads outside its target.
    OutsideTarget = 5,
    /// The value of a symbol is outside its hunk.
    SymbolOutside = 6,
    /// The first hunk has no content.
    NoEntry = 7,
    /// A content block asks for a memory that the table does not ask for.
    MemoryIgnored = 8,
}

impl WarningKind {
    /// A later library may have kinds that this package does not know.
    fn of(number: u32) -> Option<WarningKind> {
        match number {
            1 => Some(WarningKind::OddOffset),
            2 => Some(WarningKind::Twice),
            3 => Some(WarningKind::Overlap),
            4 => Some(WarningKind::InBss),
            5 => Some(WarningKind::OutsideTarget),
            6 => Some(WarningKind::SymbolOutside),
            7 => Some(WarningKind::NoEntry),
            8 => Some(WarningKind::MemoryIgnored),
            _ => None,
        }
    }
}

/// Something suspicious in a load file. What its kind does not have is 0.
///
/// ```
/// # let longs = [0x3F3_u32, 0, 1, 0, 0, 2, 0x3E9, 2, 0x4EF9_0000, 0, 0x3EC, 1, 0, 3, 0, 0x3F2];
/// # let data: Vec<u8> = longs.iter().flat_map(|it| it.to_be_bytes()).collect();
/// for it in hunk::read(&data)?.warnings() {
///     println!("byte {}: hunk {}: {:?}", it.place, it.hunk, it.kind);
/// }
/// # Ok::<(), hunk::Error>(())
/// ```
#[derive(Clone, Copy, Debug, PartialEq, Eq)]
pub struct Warning {
    /// The byte of the file at which the offset, the symbol or the content block stands.
    pub place: u64,
    /// The hunk.
    pub hunk: u64,
    /// What is suspicious.
    pub kind: WarningKind,
    /// What is relocated, in bytes from the start of the hunk.
    pub offset: u32,
    /// The target of the relocation, or the hunk of the symbol.
    pub target: u32,
    /// The longword before it is relocated, or the value of the symbol. Of `MemoryIgnored` the memory that the block asks for:
    /// 1 chip, 2 fast.
    pub value: u32,
    /// The other offset of an `Overlap`.
    pub other: u32,
}

impl Warning {
    fn of(row: &raw::Warning) -> Option<Warning> {
        let kind = WarningKind::of(row.kind)?;
        let raw::Warning { place, hunk, offset, target, value, other, .. } = *row;
        Some(Warning { place, hunk, kind, offset, target, value, other })
    }
}

impl File<'_> {
    /// What is suspicious in a load file, which is looked for at each call. An object file has no warnings, nor has a [`Front`].
    ///
    /// ```
    /// use hunk::WarningKind;
    ///
    /// # let longs = [0x3F3_u32, 0, 1, 0, 0, 2, 0x3E9, 2, 0x4EF9_0000, 0, 0x3EC, 1, 0, 3, 0, 0x3F2];
    /// # let data: Vec<u8> = longs.iter().flat_map(|it| it.to_be_bytes()).collect();
    /// // The longword at offset 3 of hunk 0 is relocated.
    /// let warnings = hunk::read(&data)?.warnings();
    /// assert_eq!((warnings[0].place, warnings[0].kind, warnings[0].offset), (52, WarningKind::OddOffset, 3));
    /// # Ok::<(), hunk::Error>(())
    /// ```
    ///
    /// [`Front`]: crate::Front
    #[must_use]
    pub fn warnings(&self) -> Vec<Warning> {
        // The bytes of a front end before the file that they begin does: the library refuses them.
        listed(self.bytes()).unwrap_or_default()
    }
}

/// The warnings of the load file that the bytes begin with. The library needs room: a longword for each of the file.
fn listed(data: &[u8]) -> Result<Vec<Warning>, Error> {
    let mut room = vec![0; data.len() / 4];
    let found = rows(|rows| raw::warnings(data, &mut room, rows), |answer| answer.count)?;
    Ok(found.iter().filter_map(Warning::of).collect())
}
