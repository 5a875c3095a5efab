//! The bytes of the hunks of a load file.

use std::ops::Index;
use std::slice;

/// The bytes of each hunk of a load file. They lie in one memory, one hunk after the other.
///
/// ```
/// # let longs = [0x3F3_u32, 0, 2, 0, 1, 2, 1, 0x3E9, 2, 0x4EF9_0000, 0x0000_4E71, 0x3EC, 1, 1, 2, 0, 0x3F0, 1,
/// #     0x6D61_696E, 0, 0, 0x3F2, 0x3EA, 1, 0x1234_5678, 0x3F2];
/// # let data: Vec<u8> = longs.iter().flat_map(|it| it.to_be_bytes()).collect();
/// let segments = hunk::load_packed(&data, 0x21000, hunk::BUDGET)?;
/// for (number, bytes) in segments.iter().enumerate() {
///     println!("hunk {number}: {} bytes", bytes.len());
/// }
/// assert_eq!((segments.len(), &segments[1]), (2, &[0x12, 0x34, 0x56, 0x78][..]));
/// // Each in a list of its own, which copies them.
/// let lists: Vec<Vec<u8>> = segments.into();
/// # assert_eq!(lists[1], [0x12, 0x34, 0x56, 0x78]);
/// # Ok::<(), hunk::Error>(())
/// ```
#[derive(Clone, Debug, PartialEq, Eq)]
pub struct Segments {
    pub(crate) memory: Vec<u8>,
    pub(crate) ends: Vec<usize>,
}

impl Segments {
    /// How many hunks there are: one or more.
    ///
    /// ```
    /// # let longs = [0x3F3_u32, 0, 1, 0, 0, 1, 0x3E9, 1, 0x4E75_4E71, 0x3F2];
    /// # let data: Vec<u8> = longs.iter().flat_map(|it| it.to_be_bytes()).collect();
    /// assert_eq!(hunk::load_packed(&data, 0x21000, hunk::BUDGET)?.len(), 1);
    /// # Ok::<(), hunk::Error>(())
    /// ```
    #[must_use]
    #[allow(clippy::len_without_is_empty)]
    pub fn len(&self) -> usize {
        self.ends.len()
    }

    /// The bytes of each hunk.
    ///
    /// ```
    /// # let longs = [0x3F3_u32, 0, 1, 0, 0, 1, 0x3E9, 1, 0x4E75_4E71, 0x3F2];
    /// # let data: Vec<u8> = longs.iter().flat_map(|it| it.to_be_bytes()).collect();
    /// let total: usize = hunk::load_packed(&data, 0x21000, hunk::BUDGET)?.iter().map(<[u8]>::len).sum();
    /// assert_eq!(total, 4);
    /// # Ok::<(), hunk::Error>(())
    /// ```
    #[must_use]
    pub fn iter(&self) -> SegmentsIter<'_> {
        SegmentsIter { memory: &self.memory, start: 0, ends: self.ends.iter() }
    }

    /// The memory, in which a packed file lies from its base on.
    ///
    /// ```
    /// # let longs = [0x3F3_u32, 0, 1, 0, 0, 1, 0x3E9, 1, 0x4E75_4E71, 0x3F2];
    /// # let data: Vec<u8> = longs.iter().flat_map(|it| it.to_be_bytes()).collect();
    /// assert_eq!(hunk::load_packed(&data, 0x21000, hunk::BUDGET)?.into_memory(), [0x4E, 0x75, 0x4E, 0x71]);
    /// # Ok::<(), hunk::Error>(())
    /// ```
    #[must_use]
    pub fn into_memory(self) -> Vec<u8> {
        self.memory
    }
}

impl Index<usize> for Segments {
    type Output = [u8];

    fn index(&self, number: usize) -> &[u8] {
        let start = number.checked_sub(1).map_or(0, |before| self.ends[before]);
        &self.memory[start..self.ends[number]]
    }
}

impl From<Segments> for Vec<Vec<u8>> {
    fn from(segments: Segments) -> Vec<Vec<u8>> {
        segments.iter().map(<[u8]>::to_vec).collect()
    }
}

impl<'a> IntoIterator for &'a Segments {
    type Item = &'a [u8];
    type IntoIter = SegmentsIter<'a>;

    fn into_iter(self) -> SegmentsIter<'a> {
        self.iter()
    }
}

/// Goes over the bytes of each hunk: [`Segments::iter`].
///
/// ```
/// # let longs = [0x3F3_u32, 0, 1, 0, 0, 1, 0x3E9, 1, 0x4E75_4E71, 0x3F2];
/// # let data: Vec<u8> = longs.iter().flat_map(|it| it.to_be_bytes()).collect();
/// for bytes in &hunk::load_packed(&data, 0x21000, hunk::BUDGET)? {
///     assert_eq!(bytes, [0x4E, 0x75, 0x4E, 0x71]);
/// }
/// # Ok::<(), hunk::Error>(())
/// ```
#[derive(Clone, Debug)]
pub struct SegmentsIter<'a> {
    memory: &'a [u8],
    start: usize,
    ends: slice::Iter<'a, usize>,
}

impl<'a> Iterator for SegmentsIter<'a> {
    type Item = &'a [u8];

    fn next(&mut self) -> Option<&'a [u8]> {
        let &end = self.ends.next()?;
        let segment = &self.memory[self.start..end];
        self.start = end;
        Some(segment)
    }

    fn size_hint(&self) -> (usize, Option<usize>) {
        self.ends.size_hint()
    }
}

impl ExactSizeIterator for SegmentsIter<'_> {}
