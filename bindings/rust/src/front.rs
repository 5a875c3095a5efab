//! What stands before the fault of a file that is refused, or that is not whole.

use crate::{raw, Error, File};

/// The front of a load file or an object file, which ends before the block in which that is refused; and a file of it.
///
/// ```
/// # let longs = [0x3F3_u32, 0, 2, 0, 1, 2, 1, 0x3E9, 2, 0x4EF9_0000, 0x0000_4E71, 0x3EC, 1, 1, 2, 0, 0x3F0, 1,
/// #     0x6D61_696E, 0, 0, 0x3F2, 0x3EA, 1, 0x1234_5678, 0x3F2];
/// # let data: Vec<u8> = longs.iter().flat_map(|it| it.to_be_bytes()).collect();
/// // The second hunk is cut off in its content.
/// let data = &data[..98];
/// let error = hunk::read(&data).unwrap_err();
/// if let Some(front) = hunk::Front::of(&data) {
///     println!("{error}, after {} bytes with {} blocks", front.place(), front.read()?.blocks().len());
/// }
/// # Ok::<(), hunk::Error>(())
/// ```
#[derive(Clone, Debug, PartialEq, Eq)]
pub struct Front {
    text: Vec<u8>,
    place: usize,
}

impl Front {
    /// Of these bytes. There is none where they begin as neither kind of file, or where the header, or the first unit's name, is
    /// refused or not whole.
    ///
    /// ```
    /// # let longs = [0x3F3_u32, 0, 2, 0, 1, 2, 1, 0x3E9, 2, 0x4EF9_0000, 0x0000_4E71, 0x3EC, 1, 1, 2, 0, 0x3F0, 1,
    /// #     0x6D61_696E, 0, 0, 0x3F2, 0x3EA, 1, 0x1234_5678, 0x3F2];
    /// # let data: Vec<u8> = longs.iter().flat_map(|it| it.to_be_bytes()).collect();
    /// assert!(hunk::Front::of(&data[..27]).is_none());
    /// // The header has seven longwords.
    /// assert_eq!(hunk::Front::of(&data[..28]).unwrap().place(), 28);
    /// ```
    #[must_use]
    pub fn of(input: &[u8]) -> Option<Front> {
        // As long as no slice can be, where the machine can't address it.
        let needed = usize::try_from(raw::front(input, &mut []).count).unwrap_or(usize::MAX);
        let mut text = vec![0; needed];
        let place = raw::front(input, &mut text).place as usize;
        (place > 0).then_some(Front { text, place })
    }

    /// How many bytes of the input it is.
    ///
    /// ```
    /// # let longs = [0x3F3_u32, 0, 2, 0, 1, 2, 1, 0x3E9, 2, 0x4EF9_0000, 0x0000_4E71, 0x3EC, 1, 1, 2, 0, 0x3F0, 1,
    /// #     0x6D61_696E, 0, 0, 0x3F2, 0x3EA, 1, 0x1234_5678, 0x3F2];
    /// # let data: Vec<u8> = longs.iter().flat_map(|it| it.to_be_bytes()).collect();
    /// // The SYMBOL block, at byte 64, has no end.
    /// assert_eq!(hunk::Front::of(&data[..80]).unwrap().place(), 64);
    /// ```
    #[must_use]
    pub fn place(&self) -> u64 {
        self.place as u64
    }

    /// A file that is accepted: the front, then an empty BSS block where a hunk has no content yet, and END.
    ///
    /// ```
    /// # let longs = [0x3F3_u32, 0, 2, 0, 1, 2, 1, 0x3E9, 2, 0x4EF9_0000, 0x0000_4E71, 0x3EC, 1, 1, 2, 0, 0x3F0, 1,
    /// #     0x6D61_696E, 0, 0, 0x3F2, 0x3EA, 1, 0x1234_5678, 0x3F2];
    /// # let data: Vec<u8> = longs.iter().flat_map(|it| it.to_be_bytes()).collect();
    /// // END and, for the other hunk, BSS of 0 longwords and END.
    /// let closing = [0x3F2_u32, 0x3EB, 0, 0x3F2].map(u32::to_be_bytes).concat();
    /// assert_eq!(hunk::Front::of(&data[..80]).unwrap().bytes(), [&data[..64], &closing].concat());
    /// ```
    #[must_use]
    pub fn bytes(&self) -> &[u8] {
        &self.text
    }

    /// What stands in the front: all hunks of the table, or of an object file those that have begun, and the whole blocks. A hunk
    /// whose content is not there has no kind. There are no findings, as a target may be a hunk after the fault.
    ///
    /// ```
    /// use hunk::Kind;
    ///
    /// # let longs = [0x3F3_u32, 0, 2, 0, 1, 2, 1, 0x3E9, 2, 0x4EF9_0000, 0x0000_4E71, 0x3EC, 1, 1, 2, 0, 0x3F0, 1,
    /// #     0x6D61_696E, 0, 0, 0x3F2, 0x3EA, 1, 0x1234_5678, 0x3F2];
    /// # let data: Vec<u8> = longs.iter().flat_map(|it| it.to_be_bytes()).collect();
    /// let front = hunk::Front::of(&data[..80]).unwrap();
    /// let file = front.read()?;
    /// assert_eq!(file.blocks().iter().map(|it| it.kind).collect::<Vec<_>>(), [Kind::CODE, Kind::RELOC32]);
    /// assert_eq!(file.hunks().iter().map(|it| it.kind).collect::<Vec<_>>(), [Some(Kind::CODE), None]);
    /// assert_eq!(file.bytes(), &data[..64]);
    /// # Ok::<(), hunk::Error>(())
    /// ```
    ///
    /// # Errors
    ///
    /// None, unless the library is another one.
    pub fn read(&self) -> Result<File<'_>, Error> {
        Ok(File::read(&self.text)?.up_to(self.place))
    }
}
