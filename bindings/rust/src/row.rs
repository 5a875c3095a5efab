//! The rows of a file: what they are, and how they are made of those that the library writes.

use crate::{raw, EntryKind, Hunk, Kind, Memory};

/// The flags of a block's word.
///
/// ```
/// use hunk::Flags;
///
/// # let longs = [0x3F3_u32, 0, 2, 0, 1, 2, 1, 0x3E9, 2, 0x4EF9_0000, 0x0000_4E71, 0x3EC, 1, 1, 2, 0, 0x3F0, 1,
/// #     0x6D61_696E, 0, 0, 0x3F2, 0x3EA, 1, 0x1234_5678, 0x3F2];
/// # let data: Vec<u8> = longs.iter().flat_map(|it| it.to_be_bytes()).collect();
/// let none = Flags { advisory: false, chip: false, fast: false };
/// assert_eq!(hunk::read(&data)?.blocks()[0].flags, none);
/// # Ok::<(), hunk::Error>(())
/// ```
#[derive(Clone, Copy, Debug, PartialEq, Eq)]
pub struct Flags {
    /// A loader that does not know the block may leave it out.
    pub advisory: bool,
    /// Chip memory is asked for.
    pub chip: bool,
    /// Fast memory is asked for.
    pub fast: bool,
}

/// A unit of an object file.
///
/// ```
/// # let longs = [0x3E7_u32, 1, 0x6D61_696E, 0x3E9, 2, 0x4EB9_0000, 0x0000_4E75, 0x3EC, 1, 7, 2, 0, 0x3EF, 0x0100_0001,
/// #     0x696E_6974, 0, 0x8100_0001, 0x6578_6974, 1, 2, 0, 0x3F2];
/// # let data: Vec<u8> = longs.iter().flat_map(|it| it.to_be_bytes()).collect();
/// let file = hunk::read(&data)?;
/// assert_eq!((file.units()[0].name, file.units()[0].hunks), (&b"main"[..], 1));
/// # Ok::<(), hunk::Error>(())
/// ```
#[derive(Clone, Copy, PartialEq, Eq)]
pub struct Unit<'a> {
    /// The byte of the file at which it begins.
    pub place: u64,
    /// Its name.
    pub name: &'a [u8],
    /// The hunks that it has.
    pub hunks: u64,
}

/// A block of a hunk.
///
/// ```
/// use hunk::Kind;
///
/// # let longs = [0x3F3_u32, 0, 2, 0, 1, 2, 1, 0x3E9, 2, 0x4EF9_0000, 0x0000_4E71, 0x3EC, 1, 1, 2, 0, 0x3F0, 1,
/// #     0x6D61_696E, 0, 0, 0x3F2, 0x3EA, 1, 0x1234_5678, 0x3F2];
/// # let data: Vec<u8> = longs.iter().flat_map(|it| it.to_be_bytes()).collect();
/// let file = hunk::read(&data)?;
/// for block in file.blocks() {
///     println!("{:08x} hunk {} {:?} {} bytes", block.place, block.hunk, block.kind, block.bytes.len());
/// }
/// assert_eq!((file.blocks()[0].kind, file.blocks()[0].content), (Kind::CODE, &data[36..44]));
/// # Ok::<(), hunk::Error>(())
/// ```
#[derive(Clone, Copy, PartialEq, Eq)]
pub struct Block<'a> {
    /// The byte of the file at which it begins.
    pub place: u64,
    /// Its bytes in the file.
    pub bytes: &'a [u8],
    /// The unit that it is in, counted from 0; 0 in a load file.
    pub unit: u64,
    /// The hunk that it is in, counted from 0 in its unit.
    pub hunk: u64,
    /// Its type.
    pub kind: Kind,
    /// The flags of its word.
    pub flags: Flags,
    /// Its content or data, or its name with padding.
    pub content: &'a [u8],
    /// The bytes of a CODE, DATA or BSS block in memory, else 0.
    pub memory: u64,
    /// How many offsets, symbols or entries it has.
    pub items: u64,
}

/// A symbol of a SYMBOL block.
///
/// ```
/// # let longs = [0x3F3_u32, 0, 2, 0, 1, 2, 1, 0x3E9, 2, 0x4EF9_0000, 0x0000_4E71, 0x3EC, 1, 1, 2, 0, 0x3F0, 1,
/// #     0x6D61_696E, 0, 0, 0x3F2, 0x3EA, 1, 0x1234_5678, 0x3F2];
/// # let data: Vec<u8> = longs.iter().flat_map(|it| it.to_be_bytes()).collect();
/// let file = hunk::read(&data)?;
/// let main = &file.symbols()[0];
/// assert_eq!((main.name, main.hunk, main.value), (&b"main"[..], 0, 0));
/// # Ok::<(), hunk::Error>(())
/// ```
#[derive(Clone, Copy, PartialEq, Eq)]
pub struct Symbol<'a> {
    /// The byte of the file at which it begins.
    pub place: u64,
    /// The unit that it is in.
    pub unit: u64,
    /// The hunk that it is in.
    pub hunk: u64,
    /// In bytes from the start of the hunk.
    pub value: u32,
    /// Its name.
    pub name: &'a [u8],
}

/// An offset that is relocated.
///
/// ```
/// # let longs = [0x3F3_u32, 0, 2, 0, 1, 2, 1, 0x3E9, 2, 0x4EF9_0000, 0x0000_4E71, 0x3EC, 1, 1, 2, 0, 0x3F0, 1,
/// #     0x6D61_696E, 0, 0, 0x3F2, 0x3EA, 1, 0x1234_5678, 0x3F2];
/// # let data: Vec<u8> = longs.iter().flat_map(|it| it.to_be_bytes()).collect();
/// let file = hunk::read(&data)?;
/// let it = &file.relocations()[0];
/// assert_eq!((it.hunk, it.offset, it.width, it.target), (0, 2, 4, 1));
/// # Ok::<(), hunk::Error>(())
/// ```
#[repr(C)]
#[derive(Clone, Copy, PartialEq, Eq)]
pub struct Relocation {
    /// The byte of the file at which the offset stands.
    pub place: u64,
    /// The unit that it is in.
    pub unit: u64,
    /// The hunk that it is in.
    pub hunk: u64,
    /// The kind of its block.
    pub kind: Kind,
    /// The bytes that are relocated: 1, 2 or 4.
    pub width: u32,
    /// The hunk whose base is added; in an object file any number.
    pub target: u32,
    /// In bytes from the start of the hunk.
    pub offset: u32,
    /// The library writes these rows as they are.
    reserved: u64,
}

/// An entry of an EXT block.
///
/// ```
/// use hunk::EntryKind;
///
/// # let longs = [0x3E7_u32, 1, 0x6D61_696E, 0x3E9, 2, 0x4EB9_0000, 0x0000_4E75, 0x3EC, 1, 7, 2, 0, 0x3EF, 0x0100_0001,
/// #     0x696E_6974, 0, 0x8100_0001, 0x6578_6974, 1, 2, 0, 0x3F2];
/// # let data: Vec<u8> = longs.iter().flat_map(|it| it.to_be_bytes()).collect();
/// let file = hunk::read(&data)?;
/// assert_eq!((file.entries()[0].kind, file.entries()[0].name), (EntryKind::DEF, &b"init"[..]));
/// assert_eq!((file.entries()[1].kind, file.entries()[1].name), (EntryKind::REF32, &b"exit"[..]));
/// # Ok::<(), hunk::Error>(())
/// ```
#[derive(Clone, Copy, PartialEq, Eq)]
pub struct Entry<'a> {
    /// The byte of the file at which it begins.
    pub place: u64,
    /// The unit that it is in.
    pub unit: u64,
    /// The hunk that it is in.
    pub hunk: u64,
    /// What it is.
    pub kind: EntryKind,
    /// The value of a definition, or the bytes of a common block, else 0.
    pub value: u32,
    /// The name that it defines or refers to.
    pub name: &'a [u8],
    /// The number of its first reference, and of that after its last.
    pub(crate) references: (usize, usize),
}

/// An offset that refers to what an entry names.
///
/// ```
/// # let longs = [0x3E7_u32, 1, 0x6D61_696E, 0x3E9, 2, 0x4EB9_0000, 0x0000_4E75, 0x3EC, 1, 7, 2, 0, 0x3EF, 0x0100_0001,
/// #     0x696E_6974, 0, 0x8100_0001, 0x6578_6974, 1, 2, 0, 0x3F2];
/// # let data: Vec<u8> = longs.iter().flat_map(|it| it.to_be_bytes()).collect();
/// let file = hunk::read(&data)?;
/// let it = &file.references()[0];
/// assert_eq!((it.entry, it.offset, it.width), (1, 2, 4));
/// # Ok::<(), hunk::Error>(())
/// ```
#[derive(Clone, Copy, Debug, PartialEq, Eq)]
pub struct Reference {
    /// The entry, by its number in the file, counted from 0.
    pub entry: u64,
    /// The byte of the file at which the offset stands.
    pub place: u64,
    /// In bytes from the start of the hunk.
    pub offset: u32,
    /// The bytes that refer: 1, 2 or 4.
    pub width: u32,
}

/// The bytes of a file, of which rows are made. Places and counts of rows are at most as many as they are.
#[derive(Clone, Copy, PartialEq, Eq)]
pub struct Bytes<'a>(pub &'a [u8]);

impl<'a> Bytes<'a> {
    fn cut(self, start: u64, count: u64) -> &'a [u8] {
        &self.0[start as usize..][..count as usize]
    }

    pub fn unit(self, row: &raw::Unit) -> Unit<'a> {
        Unit { place: row.place, name: self.cut(row.name, row.name_bytes), hunks: row.hunks }
    }

    pub fn block(self, row: &raw::Block) -> Block<'a> {
        let flag = |bit| row.flags & bit != 0;
        Block {
            place: row.place,
            bytes: self.cut(row.place, row.bytes),
            unit: row.unit,
            hunk: row.hunk,
            kind: Kind(row.kind),
            flags: Flags { advisory: flag(1), chip: flag(2), fast: flag(4) },
            content: self.cut(row.content, row.content_bytes),
            memory: row.memory,
            items: row.items,
        }
    }

    pub fn symbol(self, row: &raw::Symbol) -> Symbol<'a> {
        let name = self.cut(row.name, row.name_bytes);
        Symbol { place: row.place, unit: row.unit, hunk: row.hunk, value: row.value, name }
    }

    pub fn entries(self, rows: Vec<raw::Entry>) -> Vec<Entry<'a>> {
        let mut end = 0;
        let entry = |row: raw::Entry| {
            let first = end;
            end += row.references as usize;
            Entry {
                place: row.place,
                unit: row.unit,
                hunk: row.hunk,
                kind: EntryKind(row.kind),
                value: row.value,
                name: self.cut(row.name, row.name_bytes),
                references: (first, end),
            }
        };
        rows.into_iter().map(entry).collect()
    }
}

impl From<raw::Reference> for Reference {
    fn from(row: raw::Reference) -> Reference {
        let raw::Reference { entry, place, offset, width, .. } = row;
        Reference { entry, place, offset, width }
    }
}

impl From<&Block<'_>> for Hunk {
    fn from(block: &Block) -> Hunk {
        let memory = match block.flags {
            Flags { chip: true, .. } => Memory::Chip,
            Flags { fast: true, .. } => Memory::Fast,
            _ => Memory::Any,
        };
        Hunk { unit: block.unit, number: block.hunk, size: block.memory, memory, kind: Some(block.kind) }
    }
}
