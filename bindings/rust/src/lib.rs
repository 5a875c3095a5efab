//! Reads, checks, loads and strips hunk files, the executables and object files of AmigaDOS.
//!
//! The C library `libhunk` does it, whose code is proved to keep its contracts, whatever the bytes are. This package, which hands
//! slices over to it and makes rows of the answers, is tested, and not proved.
//!
//! ```
//! // A load file in longwords: the header, a hunk of CODE with a relocation and a symbol, and a hunk of DATA.
//! let longs: [u32; 26] = [
//!     0x3F3, 0, 2, 0, 1, 2, 1, // two hunks, of 2 and 1 longwords
//!     0x3E9, 2, 0x4EF9_0000, 0x0000_4E71, // jmp 0; nop
//!     0x3EC, 1, 1, 2, 0, // the longword at offset 2 names hunk 1
//!     0x3F0, 1, 0x6D61_696E, 0, 0, // main is at offset 0
//!     0x3F2, 0x3EA, 1, 0x1234_5678, 0x3F2,
//! ];
//! let data: Vec<u8> = longs.iter().flat_map(|it| it.to_be_bytes()).collect();
//!
//! // What stands in it.
//! let file = hunk::read(&data)?;
//! assert_eq!(file.symbols()[0].name, b"main");
//! assert_eq!(file.relocations()[0].target, 1);
//!
//! // The bytes of its hunks, for an address.
//! let segments = hunk::load_packed(&data, 0x21000, hunk::BUDGET)?;
//! assert_eq!(segments[0], [0x4E, 0xF9, 0x00, 0x02, 0x10, 0x08, 0x4E, 0x71]);
//!
//! // What is refused says why, and at which byte.
//! let error = hunk::read(&data[..34]).unwrap_err();
//! assert_eq!(error.to_string(), "refused at byte 32: Truncated (26): the input ends too soon");
//! # Ok::<(), hunk::Error>(())
//! ```
//!
//! Bytes that are refused are an [`Error`]. No call keeps anything, and none panics whatever the bytes are, unless the process
//! has no memory for a list of the answer.
//!
//! | to | call |
//! |---|---|
//! | see what stands in a file | [`read`], which gives a [`File`] |
//! | see all that a file says, as one flat list | [`parts`] |
//! | make a file of such a list | [`build`](fn@build) |
//! | load a file | [`load_packed`], or [`load`] where each hunk has its own address |
//! | load it into memory of your own | [`load_into`], [`load_at`], with sizes from [`table`] |
//! | find what is wrong with its offsets | [`check`] |
//! | find what is suspicious in a load file | [`File::warnings`] |
//! | leave names, symbols and debug data out | [`strip`] |
//! | take short relocations, or hunks without END | [`Plain`] |
//! | see what stands before the fault of a refused file | [`Front`] |
//!
//! The build script links the first `libhunk` that it finds, statically where it has the choice: in the folder `HUNK_LIB_DIR`,
//! beside this package in an archive or a clone, or where pkg-config says. README.md has how to choose.

#![deny(missing_docs, unsafe_code)]

mod build;
mod error;
mod file;
mod finding;
mod front;
mod kind;
mod lazy;
mod load;
mod part;
mod plain;
mod raw;
mod row;
mod segments;
mod show;
mod warning;

pub use build::{build, BuildError};
pub use error::Error;
pub use file::{read, File};
pub use finding::{check, strip, Fault, Finding};
pub use front::Front;
pub use kind::{EntryKind, Kind};
pub use load::{load, load_at, load_into, load_packed, table, Hunk, Memory, BUDGET};
pub use part::{parts, Part, PartKind};
pub use plain::{spelling, Plain, Spelling};
pub use row::{Block, Entry, Flags, Reference, Relocation, Symbol, Unit};
pub use segments::{Segments, SegmentsIter};
pub use warning::{Warning, WarningKind};

/// The number of the interface that this package is written for.
///
/// ```
/// assert_eq!(hunk::ABI, 1);
/// ```
pub const ABI: u32 = 1;

/// The number of the library's interface: [`ABI`], or the library is another one.
///
/// ```
/// assert_eq!(hunk::abi(), hunk::ABI);
/// ```
#[must_use]
pub fn abi() -> u32 {
    raw::abi()
}
