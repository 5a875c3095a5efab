//! The table of a load file, and its hunks in memory.

use crate::error::{accepted, addressable, Error};
use crate::{raw, Kind, Segments};

/// The most bytes that the hunks of a file may have in memory together, where there is no better limit.
///
/// ```
/// assert_eq!(hunk::BUDGET, 16 * 1024 * 1024);
/// ```
pub const BUDGET: u64 = 1 << 24;

/// The memory that a hunk asks for.
///
/// ```
/// use hunk::Memory;
///
/// // A header alone: of its two hunks the second asks for chip memory.
/// let longs = [0x3F3_u32, 0, 2, 0, 1, 2, 0x4000_0001];
/// let data: Vec<u8> = longs.iter().flat_map(|it| it.to_be_bytes()).collect();
/// let hunks = hunk::table(&data, hunk::BUDGET)?;
/// assert_eq!((hunks[0].memory, hunks[1].memory), (Memory::Any, Memory::Chip));
/// # Ok::<(), hunk::Error>(())
/// ```
#[derive(Clone, Copy, Debug, PartialEq, Eq)]
pub enum Memory {
    /// Any memory will do.
    Any,
    /// Chip memory, which the custom chips see.
    Chip,
    /// Fast memory.
    Fast,
    /// The memory attributes, which are not interpreted.
    Attributes(u32),
}

/// What the table of a load file says of a hunk, or the content block of an object file's.
///
/// ```
/// use hunk::Kind;
///
/// # let longs = [0x3F3_u32, 0, 2, 0, 1, 2, 1, 0x3E9, 2, 0x4EF9_0000, 0x0000_4E71, 0x3EC, 1, 1, 2, 0, 0x3F0, 1,
/// #     0x6D61_696E, 0, 0, 0x3F2, 0x3EA, 1, 0x1234_5678, 0x3F2];
/// # let data: Vec<u8> = longs.iter().flat_map(|it| it.to_be_bytes()).collect();
/// let file = hunk::read(&data)?;
/// for hunk in file.hunks() {
///     println!("hunk {}: {} bytes of {:?}", hunk.number, hunk.size, hunk.kind);
/// }
/// assert_eq!((file.hunks()[1].size, file.hunks()[1].kind), (4, Some(Kind::DATA)));
/// # Ok::<(), hunk::Error>(())
/// ```
#[derive(Clone, Copy, Debug, PartialEq, Eq)]
pub struct Hunk {
    /// The unit that it is in, counted from 0; 0 in a load file.
    pub unit: u64,
    /// Its number in the unit, counted from 0.
    pub number: u64,
    /// Its bytes in memory.
    pub size: u64,
    /// The memory that it asks for.
    pub memory: Memory,
    /// The kind of its content block; `None` where only the header was read.
    pub kind: Option<Kind>,
}

impl From<&raw::Row> for Hunk {
    fn from(row: &raw::Row) -> Hunk {
        let memory = match row.memory {
            0 => Memory::Any,
            1 => Memory::Chip,
            2 => Memory::Fast,
            _ => Memory::Attributes(row.extra),
        };
        Hunk { unit: 0, number: 0, size: row.bytes.into(), memory, kind: None }
    }
}

/// The hunks that the header in front declares. Bytes after the header are not read.
///
/// ```
/// # let longs = [0x3F3_u32, 0, 2, 0, 1, 2, 1, 0x3E9, 2, 0x4EF9_0000, 0x0000_4E71, 0x3EC, 1, 1, 2, 0, 0x3F0, 1,
/// #     0x6D61_696E, 0, 0, 0x3F2, 0x3EA, 1, 0x1234_5678, 0x3F2];
/// # let data: Vec<u8> = longs.iter().flat_map(|it| it.to_be_bytes()).collect();
/// let hunks = hunk::table(&data[..28], hunk::BUDGET)?;
/// assert_eq!((hunks[0].size, hunks[1].size), (8, 4));
/// assert_eq!(hunk::table(&data, 11).unwrap_err().reason, "Budget");
/// # Ok::<(), hunk::Error>(())
/// ```
///
/// # Errors
///
/// An error where the bytes do not begin with the header of a load file, or its hunks have more bytes than the budget.
pub fn table(data: &[u8], budget: u64) -> Result<Vec<Hunk>, Error> {
    let hunks = |rows: &[raw::Row]| (0..).zip(rows).map(|(number, row)| Hunk { number, ..Hunk::from(row) }).collect();
    declared(data, budget, hunks)
}

/// For so many hunks there is room before it is known how many they are.
const FEW: usize = 64;

/// What is made of the library's rows of the table.
fn declared<T>(data: &[u8], budget: u64, make: impl FnOnce(&[raw::Row]) -> T) -> Result<T, Error> {
    let mut few = [raw::Row::default(); FEW];
    let answer = raw::table(data, budget, &mut few);
    if answer.number != raw::NO_ROOM {
        let hunks = accepted(answer)?.hunk as usize;
        return Ok(make(&few[..hunks]));
    }
    let mut rows = vec![raw::Row::default(); answer.hunk as usize];
    accepted(raw::table(data, budget, &mut rows))?;
    Ok(make(&rows))
}

/// The bytes of each hunk of the load file in front, relocated for an address of its own.
///
/// ```
/// # let longs = [0x3F3_u32, 0, 2, 0, 1, 2, 1, 0x3E9, 2, 0x4EF9_0000, 0x0000_4E71, 0x3EC, 1, 1, 2, 0, 0x3F0, 1,
/// #     0x6D61_696E, 0, 0, 0x3F2, 0x3EA, 1, 0x1234_5678, 0x3F2];
/// # let data: Vec<u8> = longs.iter().flat_map(|it| it.to_be_bytes()).collect();
/// let segments = hunk::load(&data, &[0x1000, 0x200000], hunk::BUDGET)?;
/// assert_eq!(segments[0], [0x4E, 0xF9, 0x00, 0x20, 0x00, 0x00, 0x4E, 0x71]);
/// assert_eq!(segments[1], [0x12, 0x34, 0x56, 0x78]);
/// # Ok::<(), hunk::Error>(())
/// ```
///
/// # Errors
///
/// An error where the bytes do not begin with a load file, its hunks have more bytes than the budget, or one of them has no
/// base; `OutOfMemory` where they have more bytes than the machine can address.
pub fn load(data: &[u8], bases: &[u32], budget: u64) -> Result<Segments, Error> {
    segments(data, budget, |bytes| raw::load(data, bases, bytes))
}

/// The same for hunks one after the other from the address `base` on.
///
/// ```
/// # let longs = [0x3F3_u32, 0, 2, 0, 1, 2, 1, 0x3E9, 2, 0x4EF9_0000, 0x0000_4E71, 0x3EC, 1, 1, 2, 0, 0x3F0, 1,
/// #     0x6D61_696E, 0, 0, 0x3F2, 0x3EA, 1, 0x1234_5678, 0x3F2];
/// # let data: Vec<u8> = longs.iter().flat_map(|it| it.to_be_bytes()).collect();
/// let segments = hunk::load_packed(&data, 0x21000, hunk::BUDGET)?;
/// // The second hunk begins 8 bytes after the first.
/// assert_eq!(segments[0], [0x4E, 0xF9, 0x00, 0x02, 0x10, 0x08, 0x4E, 0x71]);
/// # Ok::<(), hunk::Error>(())
/// ```
///
/// # Errors
///
/// As [`load`]; `NoBase` where a hunk would pass the address 2^32.
pub fn load_packed(data: &[u8], base: u32, budget: u64) -> Result<Segments, Error> {
    segments(data, budget, |bytes| raw::load_packed(data, base, bytes))
}

/// Loads the hunks one after the other into the memory, which begins at the address `base`: RAM of an emulator. Answers
/// how many bytes they have; what follows them in the memory stays as it was.
///
/// ```
/// # let longs = [0x3F3_u32, 0, 2, 0, 1, 2, 1, 0x3E9, 2, 0x4EF9_0000, 0x0000_4E71, 0x3EC, 1, 1, 2, 0, 0x3F0, 1,
/// #     0x6D61_696E, 0, 0, 0x3F2, 0x3EA, 1, 0x1234_5678, 0x3F2];
/// # let data: Vec<u8> = longs.iter().flat_map(|it| it.to_be_bytes()).collect();
/// let mut ram = vec![0; 1 << 20];
/// let bytes = hunk::load_into(&data, 0x21000, &mut ram[0x21000..])?;
/// assert_eq!(bytes, 12);
/// assert_eq!(ram[0x21008..0x2100C], [0x12, 0x34, 0x56, 0x78]);
/// # Ok::<(), hunk::Error>(())
/// ```
///
/// # Errors
///
/// As [`load_packed`]; `NoRoom` where the memory is too small, which [`table`] tells beforehand. The memory is as it was then.
pub fn load_into(data: &[u8], base: u32, memory: &mut [u8]) -> Result<usize, Error> {
    // As many as the memory has, or fewer.
    Ok(accepted(raw::load_into(data, base, memory))?.count as usize)
}

/// Loads each hunk for its own address, and to there: the memory begins at the address `start`, as that of a machine in which
/// chip and fast memory lie. Answers how many bytes the hunks have together, more than the memory, perhaps, where two overlap.
/// Memory that no hunk has stays as it was; bytes that two have are unspecified.
///
/// ```
/// # let longs = [0x3F3_u32, 0, 2, 0, 1, 2, 1, 0x3E9, 2, 0x4EF9_0000, 0x0000_4E71, 0x3EC, 1, 1, 2, 0, 0x3F0, 1,
/// #     0x6D61_696E, 0, 0, 0x3F2, 0x3EA, 1, 0x1234_5678, 0x3F2];
/// # let data: Vec<u8> = longs.iter().flat_map(|it| it.to_be_bytes()).collect();
/// let mut memory = vec![0; 0x3000];
/// assert_eq!(hunk::load_at(&data, &[0x1000, 0x3000], 0x1000, &mut memory)?, 12);
/// assert_eq!(memory[..8], [0x4E, 0xF9, 0x00, 0x00, 0x30, 0x00, 0x4E, 0x71]);
/// assert_eq!(memory[0x2000..0x2004], [0x12, 0x34, 0x56, 0x78]);
/// # Ok::<(), hunk::Error>(())
/// ```
///
/// # Errors
///
/// An error where the bytes do not begin with a load file; `NoBase` where a hunk has no base, or does not lie in the memory
/// there. The memory is as it was then.
pub fn load_at(data: &[u8], bases: &[u32], start: u32, memory: &mut [u8]) -> Result<u64, Error> {
    Ok(accepted(raw::load_at(data, bases, start, memory))?.count)
}

/// The hunks' bytes, where `load` writes them into memory of just their size.
fn segments(data: &[u8], budget: u64, load: impl Fn(usize) -> (Vec<u8>, raw::Answer)) -> Result<Segments, Error> {
    let sizes = |rows: &[raw::Row]| rows.iter().map(|row| row.bytes.into()).collect::<Vec<u64>>();
    let sizes = declared(data, budget, sizes)?;
    let (memory, answer) = load(addressable(sizes.iter().sum())?);
    accepted(answer)?;
    let mut end = 0;
    let ends = sizes.iter().map(|&size| {
        end += size as usize;
        end
    });
    Ok(Segments { ends: ends.collect(), memory })
}
