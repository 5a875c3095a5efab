//! Answers that are refusals, and lists of rows where they are none.

use crate::raw;
use std::{error, fmt};

/// Says that the bytes are refused.
///
/// ```
/// let error = hunk::read(b"MZ").unwrap_err();
/// assert_eq!((error.reason.as_str(), error.number, error.place), ("Truncated", 26, 0));
/// assert_eq!(error.to_string(), "refused at byte 0: Truncated (26): the input ends too soon");
/// ```
#[derive(Clone, Debug, PartialEq, Eq)]
pub struct Error {
    /// The number of the reason, as `HUNK_BUDGET` of `hunk.h`.
    pub number: u32,
    /// Its name, as `Budget`.
    pub reason: String,
    /// What it means, in a sentence.
    pub meaning: String,
    /// The byte at which it stands, counted from 0.
    pub place: u64,
    /// The hunk without a base where the reason is `NoBase`.
    pub hunk: Option<u32>,
}

impl fmt::Display for Error {
    fn fmt(&self, f: &mut fmt::Formatter<'_>) -> fmt::Result {
        write!(f, "refused at byte {}: {} ({})", self.place, self.reason, self.number)?;
        if let Some(hunk) = self.hunk {
            write!(f, " hunk {hunk}")?;
        }
        write!(f, ": {}", self.meaning)
    }
}

impl error::Error for Error {}

/// The answer, unless it is a refusal.
pub fn accepted(answer: raw::Answer) -> Result<raw::Answer, Error> {
    if answer.number == raw::OK {
        return Ok(answer);
    }
    Err(refusal(&answer))
}

fn refusal(answer: &raw::Answer) -> Error {
    Error {
        number: answer.number,
        reason: text(raw::reason, answer.number),
        meaning: text(raw::reason_text, answer.number),
        place: answer.place,
        hunk: (answer.number == raw::NO_BASE).then_some(answer.hunk),
    }
}

/// So many bytes that a file declares, as a length of this machine.
pub fn addressable(bytes: u64) -> Result<usize, Error> {
    let refused = raw::Answer { number: raw::OUT_OF_MEMORY, hunk: 0, place: 0, count: bytes };
    usize::try_from(bytes).map_err(|_| refusal(&refused))
}

/// The text that a call has for the number of an answer.
fn text(call: fn(u32, &mut [u8]) -> raw::Answer, number: u32) -> String {
    let mut text = vec![0; call(number, &mut []).count as usize];
    call(number, &mut text);
    String::from_utf8_lossy(&text).into_owned()
}

/// The rows that `write` writes. It is asked first how many there are, which `count` takes from its answer.
pub fn rows<R: Clone + Default>(
    mut write: impl FnMut(&mut [R]) -> raw::Answer,
    count: impl Fn(&raw::Answer) -> u64,
) -> Result<Vec<R>, Error> {
    let wanted = write(&mut []);
    if wanted.number != raw::NO_ROOM {
        accepted(wanted)?;
        return Ok(Vec::new());
    }
    // A file in memory has fewer of anything than it has bytes.
    let mut rows = vec![R::default(); count(&wanted) as usize];
    accepted(write(&mut rows))?;
    Ok(rows)
}

/// Of so many bytes, a file gets room for as many rows as it may have: that is quicker than to ask how many they are.
const SMALL: usize = 1 << 15;

/// The rows of one kind of the file that the bytes are, or begin with.
pub fn listed<R: raw::Listed>(data: &[u8]) -> Result<Vec<R>, Error> {
    let most = if data.len() <= SMALL { data.len() / 4 } else { 0 };
    let (rows, answer) = raw::list(data, most);
    if answer.number != raw::NO_ROOM {
        return accepted(answer).map(|_| rows);
    }
    // A file in memory has fewer of anything than it has bytes.
    let (rows, answer) = raw::list(data, answer.count as usize);
    accepted(answer).map(|_| rows)
}
