//! Load files in other spellings: their plain spelling.

use crate::{load_packed, raw, Error, File, Segments};
use std::borrow::Cow;

/// How an input spells its file.
///
/// ```
/// // A load file of one hunk, without its END.
/// let longs = [0x3F3_u32, 0, 1, 0, 0, 1, 0x3E9, 1, 0x4E75_4E71];
/// let data: Vec<u8> = longs.iter().flat_map(|it| it.to_be_bytes()).collect();
/// assert_eq!(hunk::spelling(&data), hunk::Spelling { bytes: 40, short_blocks: 0, ends: 1 });
/// ```
#[derive(Clone, Copy, Debug, PartialEq, Eq)]
pub struct Spelling {
    /// The bytes of its plain spelling.
    pub bytes: u64,
    /// The blocks of short relocations, which the plain spelling has as RELOC32.
    pub short_blocks: u64,
    /// The END that it leaves out.
    pub ends: u64,
}

impl Spelling {
    /// Whether the input is its own plain spelling.
    ///
    /// ```
    /// # let longs = [0x3F3_u32, 0, 2, 0, 1, 2, 1, 0x3E9, 2, 0x4EF9_0000, 0x0000_4E71, 0x3EC, 1, 1, 2, 0, 0x3F0, 1,
    /// #     0x6D61_696E, 0, 0, 0x3F2, 0x3EA, 1, 0x1234_5678, 0x3F2];
    /// # let data: Vec<u8> = longs.iter().flat_map(|it| it.to_be_bytes()).collect();
    /// assert!(hunk::spelling(&data).is_plain());
    /// assert!(!hunk::spelling(&data[..100]).is_plain());
    /// ```
    #[must_use]
    pub fn is_plain(&self) -> bool {
        self.short_blocks == 0 && self.ends == 0
    }
}

/// How the bytes spell their file. None are refused.
///
/// ```
/// # let longs = [0x3F3_u32, 0, 2, 0, 1, 2, 1, 0x3E9, 2, 0x4EF9_0000, 0x0000_4E71, 0x3EC, 1, 1, 2, 0, 0x3F0, 1,
/// #     0x6D61_696E, 0, 0, 0x3F2, 0x3EA, 1, 0x1234_5678, 0x3F2];
/// # let data: Vec<u8> = longs.iter().flat_map(|it| it.to_be_bytes()).collect();
/// assert_eq!(hunk::spelling(&data[..100]).ends, 1);
/// ```
#[must_use]
pub fn spelling(data: &[u8]) -> Spelling {
    let row = raw::spelling_of(data);
    Spelling { bytes: row.bytes, short_blocks: row.short_blocks, ends: row.ends }
}

/// An input, and its plain spelling, which all other calls take.
///
/// ```
/// # let longs = [0x3F3_u32, 0, 2, 0, 1, 2, 1, 0x3E9, 2, 0x4EF9_0000, 0x0000_4E71, 0x3EC, 1, 1, 2, 0, 0x3F0, 1,
/// #     0x6D61_696E, 0, 0, 0x3F2, 0x3EA, 1, 0x1234_5678, 0x3F2];
/// # let data: Vec<u8> = longs.iter().flat_map(|it| it.to_be_bytes()).collect();
/// # let data = &data[..100];
/// // The last hunk of these bytes has no END.
/// assert!(hunk::read(&data).is_err());
/// let plain = hunk::Plain::of(&data);
/// for symbol in plain.read()?.symbols() {
///     println!("{symbol:?}");
/// }
/// # Ok::<(), hunk::Error>(())
/// ```
#[derive(Clone, Debug, PartialEq, Eq)]
pub struct Plain<'a> {
    input: &'a [u8],
    text: Cow<'a, [u8]>,
    spelling: Spelling,
}

impl<'a> Plain<'a> {
    /// Of these bytes, with any others after the file. They are borrowed where they are their own plain spelling.
    ///
    /// ```
    /// # let longs = [0x3F3_u32, 0, 2, 0, 1, 2, 1, 0x3E9, 2, 0x4EF9_0000, 0x0000_4E71, 0x3EC, 1, 1, 2, 0, 0x3F0, 1,
    /// #     0x6D61_696E, 0, 0, 0x3F2, 0x3EA, 1, 0x1234_5678, 0x3F2];
    /// # let data: Vec<u8> = longs.iter().flat_map(|it| it.to_be_bytes()).collect();
    /// assert_eq!(hunk::Plain::of(&data).bytes(), data);
    /// ```
    #[must_use]
    pub fn of(input: &'a [u8]) -> Plain<'a> {
        let spelling = spelling(input);
        if spelling.is_plain() {
            return Plain { input, text: Cow::Borrowed(input), spelling };
        }
        // At most twice the input, and a slice has at most `isize::MAX` bytes. There is just the room that it asked for.
        let mut text = vec![0; spelling.bytes as usize];
        raw::plain(input, &mut text);
        Plain { input, text: Cow::Owned(text), spelling }
    }

    /// The plain spelling. Places of rows are in it.
    ///
    /// ```
    /// # let longs = [0x3F3_u32, 0, 2, 0, 1, 2, 1, 0x3E9, 2, 0x4EF9_0000, 0x0000_4E71, 0x3EC, 1, 1, 2, 0, 0x3F0, 1,
    /// #     0x6D61_696E, 0, 0, 0x3F2, 0x3EA, 1, 0x1234_5678, 0x3F2];
    /// # let data: Vec<u8> = longs.iter().flat_map(|it| it.to_be_bytes()).collect();
    /// // An END is added.
    /// assert_eq!(hunk::Plain::of(&data[..100]).bytes(), data);
    /// ```
    #[must_use]
    pub fn bytes(&self) -> &[u8] {
        &self.text
    }

    /// How the input spells its file.
    ///
    /// ```
    /// # let longs = [0x3F3_u32, 0, 2, 0, 1, 2, 1, 0x3E9, 2, 0x4EF9_0000, 0x0000_4E71, 0x3EC, 1, 1, 2, 0, 0x3F0, 1,
    /// #     0x6D61_696E, 0, 0, 0x3F2, 0x3EA, 1, 0x1234_5678, 0x3F2];
    /// # let data: Vec<u8> = longs.iter().flat_map(|it| it.to_be_bytes()).collect();
    /// assert!(hunk::Plain::of(&data).spelling().is_plain());
    /// ```
    #[must_use]
    pub fn spelling(&self) -> Spelling {
        self.spelling
    }

    /// The byte of the input at which this byte of the plain spelling stands.
    ///
    /// One that is put in, as of an END that was left out, has the place of the next that is not. From the end of the plain
    /// spelling on it is the end of the input.
    ///
    /// ```
    /// # let longs = [0x3F3_u32, 0, 2, 0, 1, 2, 1, 0x3E9, 2, 0x4EF9_0000, 0x0000_4E71, 0x3EC, 1, 1, 2, 0, 0x3F0, 1,
    /// #     0x6D61_696E, 0, 0, 0x3F2, 0x3EA, 1, 0x1234_5678, 0x3F2];
    /// # let data: Vec<u8> = longs.iter().flat_map(|it| it.to_be_bytes()).collect();
    /// // The END that is added has the place of what follows.
    /// assert_eq!(hunk::Plain::of(&data[..100]).input_place(100), 100);
    /// ```
    #[must_use]
    pub fn input_place(&self, place: u64) -> u64 {
        raw::input_place(self.input, place)
    }

    /// A refusal of the plain spelling, with its place in the input.
    ///
    /// ```
    /// # let longs = [0x3F3_u32, 0, 2, 0, 1, 2, 1, 0x3E9, 2, 0x4EF9_0000, 0x0000_4E71, 0x3EC, 1, 1, 2, 0, 0x3F0, 1,
    /// #     0x6D61_696E, 0, 0, 0x3F2, 0x3EA, 1, 0x1234_5678, 0x3F2];
    /// # let data: Vec<u8> = longs.iter().flat_map(|it| it.to_be_bytes()).collect();
    /// let plain = hunk::Plain::of(&data);
    /// if let Err(error) = hunk::load_into(plain.bytes(), 0x21000, &mut [0; 4]) {
    ///     println!("{}", plain.in_input(error));
    /// }
    /// ```
    #[must_use]
    pub fn in_input(&self, error: Error) -> Error {
        Error { place: self.input_place(error.place), ..error }
    }

    /// What stands in the file.
    ///
    /// ```
    /// # let longs = [0x3F3_u32, 0, 2, 0, 1, 2, 1, 0x3E9, 2, 0x4EF9_0000, 0x0000_4E71, 0x3EC, 1, 1, 2, 0, 0x3F0, 1,
    /// #     0x6D61_696E, 0, 0, 0x3F2, 0x3EA, 1, 0x1234_5678, 0x3F2];
    /// # let data: Vec<u8> = longs.iter().flat_map(|it| it.to_be_bytes()).collect();
    /// assert_eq!(hunk::Plain::of(&data[..100]).read()?.hunks().len(), 2);
    /// # Ok::<(), hunk::Error>(())
    /// ```
    ///
    /// # Errors
    ///
    /// As [`crate::read`], with the place in the input.
    pub fn read(&self) -> Result<File<'_>, Error> {
        File::read(&self.text).map_err(|error| self.in_input(error))
    }

    /// The bytes of each hunk, relocated, as [`crate::load_packed`] loads them.
    ///
    /// ```
    /// # let longs = [0x3F3_u32, 0, 2, 0, 1, 2, 1, 0x3E9, 2, 0x4EF9_0000, 0x0000_4E71, 0x3EC, 1, 1, 2, 0, 0x3F0, 1,
    /// #     0x6D61_696E, 0, 0, 0x3F2, 0x3EA, 1, 0x1234_5678, 0x3F2];
    /// # let data: Vec<u8> = longs.iter().flat_map(|it| it.to_be_bytes()).collect();
    /// let segments = hunk::Plain::of(&data[..100]).load_packed(0x21000, hunk::BUDGET)?;
    /// assert_eq!(segments[1], [0x12, 0x34, 0x56, 0x78]);
    /// # Ok::<(), hunk::Error>(())
    /// ```
    ///
    /// # Errors
    ///
    /// As there, with the place in the input.
    pub fn load_packed(&self, base: u32, budget: u64) -> Result<Segments, Error> {
        load_packed(&self.text, base, budget).map_err(|error| self.in_input(error))
    }
}
