//! What stands in a file, in lists.

use crate::error::{accepted, listed, Error};
use crate::lazy::Lazy;
use crate::row::Bytes;
use crate::{raw, table, Block, Entry, Finding, Hunk, Reference, Relocation, Symbol, Unit};

/// What stands in the object file that the bytes are, or in the load file that they begin with.
///
/// ```
/// # let longs = [0x3F3_u32, 0, 2, 0, 1, 2, 1, 0x3E9, 2, 0x4EF9_0000, 0x0000_4E71, 0x3EC, 1, 1, 2, 0, 0x3F0, 1,
/// #     0x6D61_696E, 0, 0, 0x3F2, 0x3EA, 1, 0x1234_5678, 0x3F2];
/// # let data: Vec<u8> = longs.iter().flat_map(|it| it.to_be_bytes()).collect();
/// for symbol in hunk::read(&data)?.symbols() {
///     println!("hunk {} {:08x} {}", symbol.hunk, symbol.value, String::from_utf8_lossy(symbol.name));
/// }
/// # Ok::<(), hunk::Error>(())
/// ```
///
/// # Errors
///
/// As [`crate::check`].
pub fn read(data: &[u8]) -> Result<File<'_>, Error> {
    File::read(data)
}

/// What stands in a load file or an object file: rows in the order of the file, whose names are slices of its bytes. Each list is
/// made when it is first asked for, and then kept.
///
/// ```
/// # let longs = [0x3F3_u32, 0, 2, 0, 1, 2, 1, 0x3E9, 2, 0x4EF9_0000, 0x0000_4E71, 0x3EC, 1, 1, 2, 0, 0x3F0, 1,
/// #     0x6D61_696E, 0, 0, 0x3F2, 0x3EA, 1, 0x1234_5678, 0x3F2];
/// # let data: Vec<u8> = longs.iter().flat_map(|it| it.to_be_bytes()).collect();
/// let file = hunk::read(&data)?;
/// assert_eq!((file.hunks().len(), file.blocks().len(), file.relocations().len()), (2, 6, 1));
/// # Ok::<(), hunk::Error>(())
/// ```
#[derive(Clone, Debug)]
pub struct File<'a> {
    is_object: bool,
    /// Whether it is the front of one that is refused; then `listed` goes on after `size` with what closes its hunks.
    is_front: bool,
    size: usize,
    listed: Bytes<'a>,
    hunks: Lazy<Vec<Hunk>>,
    units: Lazy<Vec<Unit<'a>>>,
    blocks: Lazy<Vec<Block<'a>>>,
    symbols: Lazy<Vec<Symbol<'a>>>,
    relocations: Lazy<Vec<Relocation>>,
    entries: Lazy<Vec<Entry<'a>>>,
    references: Lazy<Vec<Reference>>,
    findings: Lazy<Vec<Finding>>,
}

/// Files are the same where their bytes are, of which all lists are made.
impl PartialEq for File<'_> {
    fn eq(&self, other: &Self) -> bool {
        (self.is_front, self.size, self.listed) == (other.is_front, other.size, other.listed)
    }
}

impl Eq for File<'_> {}

impl<'a> File<'a> {
    /// As [`read`].
    ///
    /// ```
    /// assert_eq!(hunk::File::read(b"").unwrap_err().reason, "Truncated");
    /// ```
    ///
    /// # Errors
    ///
    /// As [`crate::check`].
    pub fn read(data: &'a [u8]) -> Result<File<'a>, Error> {
        // Units are quickest to ask for.
        let (_, asked) = raw::list::<raw::Unit>(data, 0);
        let (is_object, size) = (asked.hunk == 0, asked.place as usize);
        if asked.number != raw::NO_ROOM {
            accepted(asked)?;
        }
        Ok(File {
            is_object,
            is_front: false,
            size,
            listed: Bytes(&data[..size]),
            hunks: Lazy::default(),
            units: Lazy::default(),
            blocks: Lazy::default(),
            symbols: Lazy::default(),
            relocations: Lazy::default(),
            entries: Lazy::default(),
            references: Lazy::default(),
            findings: Lazy::default(),
        })
    }

    /// The same up to this byte, after which it has only BSS blocks and END. It has no findings: a target may be a hunk after it.
    pub(crate) fn up_to(self, place: usize) -> File<'a> {
        File { is_front: true, size: place, ..self }
    }

    /// The rows of a list, which the library writes, as it has accepted the file before.
    fn rows<R: raw::Listed>(&self) -> Vec<R> {
        listed(self.listed.0).unwrap_or_default()
    }

    fn listed_blocks(&self) -> &[Block<'a>] {
        self.blocks.get(|| self.rows().into_iter().map(|row| self.listed.block(&row)).collect())
    }

    /// Whether it is an object file; else it is a load file.
    ///
    /// ```
    /// # let longs = [0x3E7_u32, 1, 0x6D61_696E, 0x3E9, 2, 0x4EB9_0000, 0x0000_4E75, 0x3EC, 1, 7, 2, 0, 0x3EF, 0x0100_0001,
    /// #     0x696E_6974, 0, 0x8100_0001, 0x6578_6974, 1, 2, 0, 0x3F2];
    /// # let data: Vec<u8> = longs.iter().flat_map(|it| it.to_be_bytes()).collect();
    /// assert!(hunk::read(&data)?.is_object());
    /// # Ok::<(), hunk::Error>(())
    /// ```
    #[must_use]
    pub fn is_object(&self) -> bool {
        self.is_object
    }

    /// The bytes of the file, without those that follow a load file.
    ///
    /// ```
    /// # let longs = [0x3F3_u32, 0, 2, 0, 1, 2, 1, 0x3E9, 2, 0x4EF9_0000, 0x0000_4E71, 0x3EC, 1, 1, 2, 0, 0x3F0, 1,
    /// #     0x6D61_696E, 0, 0, 0x3F2, 0x3EA, 1, 0x1234_5678, 0x3F2];
    /// # let data: Vec<u8> = longs.iter().flat_map(|it| it.to_be_bytes()).collect();
    /// let longer = [&data, &b"padding"[..]].concat();
    /// assert_eq!(hunk::read(&longer)?.bytes(), data);
    /// # Ok::<(), hunk::Error>(())
    /// ```
    #[must_use]
    pub fn bytes(&self) -> &'a [u8] {
        &self.listed.0[..self.size]
    }

    /// The hunks, of an object file unit by unit.
    ///
    /// ```
    /// # let longs = [0x3F3_u32, 0, 2, 0, 1, 2, 1, 0x3E9, 2, 0x4EF9_0000, 0x0000_4E71, 0x3EC, 1, 1, 2, 0, 0x3F0, 1,
    /// #     0x6D61_696E, 0, 0, 0x3F2, 0x3EA, 1, 0x1234_5678, 0x3F2];
    /// # let data: Vec<u8> = longs.iter().flat_map(|it| it.to_be_bytes()).collect();
    /// let total: u64 = hunk::read(&data)?.hunks().iter().map(|it| it.size).sum();
    /// assert_eq!(total, 12);
    /// # Ok::<(), hunk::Error>(())
    /// ```
    #[must_use]
    pub fn hunks(&self) -> &[Hunk] {
        self.hunks.get(|| self.each_hunk().unwrap_or_default())
    }

    /// The units of an object file.
    ///
    /// ```
    /// # let longs = [0x3E7_u32, 1, 0x6D61_696E, 0x3E9, 2, 0x4EB9_0000, 0x0000_4E75, 0x3EC, 1, 7, 2, 0, 0x3EF, 0x0100_0001,
    /// #     0x696E_6974, 0, 0x8100_0001, 0x6578_6974, 1, 2, 0, 0x3F2];
    /// # let data: Vec<u8> = longs.iter().flat_map(|it| it.to_be_bytes()).collect();
    /// assert_eq!(hunk::read(&data)?.units()[0].name, b"main");
    /// # Ok::<(), hunk::Error>(())
    /// ```
    #[must_use]
    pub fn units(&self) -> &[Unit<'a>] {
        self.units.get(|| self.rows().into_iter().map(|row| self.listed.unit(&row)).collect())
    }

    /// The blocks of all hunks.
    ///
    /// ```
    /// use hunk::Kind;
    ///
    /// # let longs = [0x3F3_u32, 0, 2, 0, 1, 2, 1, 0x3E9, 2, 0x4EF9_0000, 0x0000_4E71, 0x3EC, 1, 1, 2, 0, 0x3F0, 1,
    /// #     0x6D61_696E, 0, 0, 0x3F2, 0x3EA, 1, 0x1234_5678, 0x3F2];
    /// # let data: Vec<u8> = longs.iter().flat_map(|it| it.to_be_bytes()).collect();
    /// let kinds: Vec<Kind> = hunk::read(&data)?.blocks().iter().map(|it| it.kind).collect();
    /// assert_eq!(kinds, [Kind::CODE, Kind::RELOC32, Kind::SYMBOL, Kind::END, Kind::DATA, Kind::END]);
    /// # Ok::<(), hunk::Error>(())
    /// ```
    #[must_use]
    pub fn blocks(&self) -> &[Block<'a>] {
        let blocks = self.listed_blocks();
        &blocks[..blocks.partition_point(|it| it.place < self.size as u64)]
    }

    /// The blocks of a hunk.
    ///
    /// ```
    /// # let longs = [0x3F3_u32, 0, 2, 0, 1, 2, 1, 0x3E9, 2, 0x4EF9_0000, 0x0000_4E71, 0x3EC, 1, 1, 2, 0, 0x3F0, 1,
    /// #     0x6D61_696E, 0, 0, 0x3F2, 0x3EA, 1, 0x1234_5678, 0x3F2];
    /// # let data: Vec<u8> = longs.iter().flat_map(|it| it.to_be_bytes()).collect();
    /// let file = hunk::read(&data)?;
    /// for hunk in file.hunks() {
    ///     println!("hunk {}: {:?}", hunk.number, file.blocks_of(hunk));
    /// }
    /// assert_eq!(file.blocks_of(&file.hunks()[1]).len(), 2);
    /// # Ok::<(), hunk::Error>(())
    /// ```
    #[must_use]
    pub fn blocks_of(&self, hunk: &Hunk) -> &[Block<'a>] {
        let wanted = (hunk.unit, hunk.number);
        let blocks = self.blocks();
        let start = blocks.partition_point(|it| (it.unit, it.hunk) < wanted);
        let end = blocks.partition_point(|it| (it.unit, it.hunk) <= wanted);
        &blocks[start..end]
    }

    /// The symbols of SYMBOL blocks.
    ///
    /// ```
    /// # let longs = [0x3F3_u32, 0, 2, 0, 1, 2, 1, 0x3E9, 2, 0x4EF9_0000, 0x0000_4E71, 0x3EC, 1, 1, 2, 0, 0x3F0, 1,
    /// #     0x6D61_696E, 0, 0, 0x3F2, 0x3EA, 1, 0x1234_5678, 0x3F2];
    /// # let data: Vec<u8> = longs.iter().flat_map(|it| it.to_be_bytes()).collect();
    /// assert_eq!(hunk::read(&data)?.symbols()[0].name, b"main");
    /// # Ok::<(), hunk::Error>(())
    /// ```
    #[must_use]
    pub fn symbols(&self) -> &[Symbol<'a>] {
        self.symbols.get(|| self.rows().into_iter().map(|row| self.listed.symbol(&row)).collect())
    }

    /// The offsets that are relocated.
    ///
    /// ```
    /// # let longs = [0x3F3_u32, 0, 2, 0, 1, 2, 1, 0x3E9, 2, 0x4EF9_0000, 0x0000_4E71, 0x3EC, 1, 1, 2, 0, 0x3F0, 1,
    /// #     0x6D61_696E, 0, 0, 0x3F2, 0x3EA, 1, 0x1234_5678, 0x3F2];
    /// # let data: Vec<u8> = longs.iter().flat_map(|it| it.to_be_bytes()).collect();
    /// assert_eq!(hunk::read(&data)?.relocations()[0].offset, 2);
    /// # Ok::<(), hunk::Error>(())
    /// ```
    #[must_use]
    pub fn relocations(&self) -> &[Relocation] {
        self.relocations.get(|| self.rows())
    }

    /// The entries of EXT blocks.
    ///
    /// ```
    /// # let longs = [0x3E7_u32, 1, 0x6D61_696E, 0x3E9, 2, 0x4EB9_0000, 0x0000_4E75, 0x3EC, 1, 7, 2, 0, 0x3EF, 0x0100_0001,
    /// #     0x696E_6974, 0, 0x8100_0001, 0x6578_6974, 1, 2, 0, 0x3F2];
    /// # let data: Vec<u8> = longs.iter().flat_map(|it| it.to_be_bytes()).collect();
    /// let file = hunk::read(&data)?;
    /// let defined: Vec<&[u8]> = file.entries().iter().filter(|it| it.kind.is_definition()).map(|it| it.name).collect();
    /// assert_eq!(defined, [b"init"]);
    /// # Ok::<(), hunk::Error>(())
    /// ```
    #[must_use]
    pub fn entries(&self) -> &[Entry<'a>] {
        self.entries.get(|| self.listed.entries(self.rows()))
    }

    /// The references of all entries.
    ///
    /// ```
    /// # let longs = [0x3E7_u32, 1, 0x6D61_696E, 0x3E9, 2, 0x4EB9_0000, 0x0000_4E75, 0x3EC, 1, 7, 2, 0, 0x3EF, 0x0100_0001,
    /// #     0x696E_6974, 0, 0x8100_0001, 0x6578_6974, 1, 2, 0, 0x3F2];
    /// # let data: Vec<u8> = longs.iter().flat_map(|it| it.to_be_bytes()).collect();
    /// let file = hunk::read(&data)?;
    /// assert_eq!(file.entries()[file.references()[0].entry as usize].name, b"exit");
    /// # Ok::<(), hunk::Error>(())
    /// ```
    #[must_use]
    pub fn references(&self) -> &[Reference] {
        self.references.get(|| self.rows::<raw::Reference>().into_iter().map(Reference::from).collect())
    }

    /// The references of an entry of this file.
    ///
    /// ```
    /// # let longs = [0x3E7_u32, 1, 0x6D61_696E, 0x3E9, 2, 0x4EB9_0000, 0x0000_4E75, 0x3EC, 1, 7, 2, 0, 0x3EF, 0x0100_0001,
    /// #     0x696E_6974, 0, 0x8100_0001, 0x6578_6974, 1, 2, 0, 0x3F2];
    /// # let data: Vec<u8> = longs.iter().flat_map(|it| it.to_be_bytes()).collect();
    /// let file = hunk::read(&data)?;
    /// assert_eq!(file.references_of(&file.entries()[1])[0].offset, 2);
    /// # Ok::<(), hunk::Error>(())
    /// ```
    #[must_use]
    pub fn references_of(&self, entry: &Entry) -> &[Reference] {
        &self.references()[entry.references.0..entry.references.1]
    }

    /// What is wrong with the offsets of an object file.
    ///
    /// ```
    /// # let longs = [0x3E7_u32, 1, 0x6D61_696E, 0x3E9, 2, 0x4EB9_0000, 0x0000_4E75, 0x3EC, 1, 7, 2, 0, 0x3EF, 0x0100_0001,
    /// #     0x696E_6974, 0, 0x8100_0001, 0x6578_6974, 1, 2, 0, 0x3F2];
    /// # let data: Vec<u8> = longs.iter().flat_map(|it| it.to_be_bytes()).collect();
    /// assert_eq!(hunk::read(&data)?.findings(), hunk::check(&data)?);
    /// # Ok::<(), hunk::Error>(())
    /// ```
    #[must_use]
    pub fn findings(&self) -> &[Finding] {
        self.findings.get(|| {
            let rows = if self.is_front { Vec::new() } else { self.rows::<raw::Finding>() };
            rows.into_iter().map(Finding::from).collect()
        })
    }

    /// The hunks, each of which has one content block.
    fn each_hunk(&self) -> Result<Vec<Hunk>, Error> {
        let contents = self.listed_blocks().iter().filter(|it| it.kind.is_content());
        let kind = |it: &Block| (it.place < self.size as u64).then_some(it.kind);
        if self.is_object {
            return Ok(contents.map(|it| Hunk { kind: kind(it), ..it.into() }).collect());
        }
        let declared = table(self.listed.0, u64::MAX)?;
        Ok(declared.into_iter().zip(contents).map(|(hunk, it)| Hunk { kind: kind(it), ..hunk }).collect())
    }
}
