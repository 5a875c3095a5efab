//! What is wrong with the offsets of a file, and what is left of a file without names.

use crate::error::{accepted, listed, Error};
use crate::raw;

/// What is wrong with an offset.
///
/// ```
/// use hunk::Fault;
///
/// # let longs = [0x3E7_u32, 1, 0x6D61_696E, 0x3E9, 2, 0x4EB9_0000, 0x0000_4E75, 0x3EC, 1, 7, 2, 0, 0x3EF, 0x0100_0001,
/// #     0x696E_6974, 0, 0x8100_0001, 0x6578_6974, 1, 2, 0, 0x3F2];
/// # let data: Vec<u8> = longs.iter().flat_map(|it| it.to_be_bytes()).collect();
/// // A relocation adds the base of hunk 7, and the unit has one hunk.
/// assert_eq!(hunk::check(&data)?[0].fault, Fault::BadTarget);
/// # Ok::<(), hunk::Error>(())
/// ```
#[derive(Clone, Copy, Debug, PartialEq, Eq)]
pub enum Fault {
    /// A relocation's target is no hunk of the unit.
    BadTarget,
    /// The bytes at the offset go past the end of the hunk.
    OutsideHunk,
}

/// Something that is wrong with an object file, and where: numbers that count from 0.
///
/// ```
/// # let longs = [0x3E7_u32, 1, 0x6D61_696E, 0x3E9, 2, 0x4EB9_0000, 0x0000_4E75, 0x3EC, 1, 7, 2, 0, 0x3EF, 0x0100_0001,
/// #     0x696E_6974, 0, 0x8100_0001, 0x6578_6974, 1, 2, 0, 0x3F2];
/// # let data: Vec<u8> = longs.iter().flat_map(|it| it.to_be_bytes()).collect();
/// for it in hunk::check(&data)? {
///     println!("unit {} hunk {} offset {}: {:?}", it.unit, it.hunk, it.offset, it.fault);
/// }
/// # Ok::<(), hunk::Error>(())
/// ```
#[derive(Clone, Copy, Debug, PartialEq, Eq)]
pub struct Finding {
    /// The byte of the file at which the offset stands.
    pub place: u64,
    /// The unit.
    pub unit: u64,
    /// The hunk of the unit.
    pub hunk: u64,
    /// In bytes from the start of the hunk.
    pub offset: u32,
    /// What is wrong there.
    pub fault: Fault,
}

impl From<raw::Finding> for Finding {
    fn from(row: raw::Finding) -> Finding {
        let fault = match row.fault {
            1 => Fault::BadTarget,
            _ => Fault::OutsideHunk,
        };
        Finding { place: row.place, unit: row.unit, hunk: row.hunk, offset: row.offset, fault }
    }
}

/// What is wrong with the offsets of an object file. A load file has no findings, or is refused.
///
/// ```
/// # let longs = [0x3E7_u32, 1, 0x6D61_696E, 0x3E9, 2, 0x4EB9_0000, 0x0000_4E75, 0x3EC, 1, 7, 2, 0, 0x3EF, 0x0100_0001,
/// #     0x696E_6974, 0, 0x8100_0001, 0x6578_6974, 1, 2, 0, 0x3F2];
/// # let data: Vec<u8> = longs.iter().flat_map(|it| it.to_be_bytes()).collect();
/// let findings = hunk::check(&data)?;
/// assert_eq!(findings.len(), 1);
/// assert_eq!((findings[0].place, findings[0].offset), (40, 2));
/// # Ok::<(), hunk::Error>(())
/// ```
///
/// # Errors
///
/// An error where the bytes are no object file and do not begin with a load file.
pub fn check(data: &[u8]) -> Result<Vec<Finding>, Error> {
    Ok(listed::<raw::Finding>(data)?.into_iter().map(Finding::from).collect())
}

/// The object file that the bytes are, or the load file in front, without names, symbols and debug data.
///
/// ```
/// # let longs = [0x3F3_u32, 0, 2, 0, 1, 2, 1, 0x3E9, 2, 0x4EF9_0000, 0x0000_4E71, 0x3EC, 1, 1, 2, 0, 0x3F0, 1,
/// #     0x6D61_696E, 0, 0, 0x3F2, 0x3EA, 1, 0x1234_5678, 0x3F2];
/// # let data: Vec<u8> = longs.iter().flat_map(|it| it.to_be_bytes()).collect();
/// let stripped = hunk::strip(&data)?;
/// // The SYMBOL block had five longwords.
/// assert_eq!(stripped, [&data[..64], &data[84..]].concat());
/// # Ok::<(), hunk::Error>(())
/// ```
///
/// # Errors
///
/// As [`check`].
pub fn strip(data: &[u8]) -> Result<Vec<u8>, Error> {
    let mut text = vec![0; data.len()];
    let answer = accepted(raw::strip(data, &mut text))?;
    text.truncate(answer.count as usize);
    Ok(text)
}
