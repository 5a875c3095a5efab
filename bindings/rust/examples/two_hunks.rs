//! Makes a program of two hunks from nothing: two_hunks OUT
//!
//! Its code adds two longwords of a table, which is a hunk of its own, and ends with the sum, 42, in d0.

use hunk::{Kind, Memory, Part};
use std::{env, error::Error, fs};

/// lea table,a0; move.l (a0)+,d0; add.l (a0),d0; rts
const CODE: [u8; 12] = [0x41, 0xF9, 0, 0, 0, 0, 0x20, 0x18, 0xD0, 0x90, 0x4E, 0x75];
const TABLE: [u8; 8] = [0, 0, 0, 0x14, 0, 0, 0, 0x16];

fn main() -> Result<(), Box<dyn Error>> {
    let path = env::args().nth(1).ok_or("usage: two_hunks OUT")?;
    let data = hunk::build(&[
        Part::hunk(3, Memory::Any),
        Part::block(Kind::CODE, &CODE),
        // The longword at 2 gets the address of hunk 1.
        Part::block(Kind::RELOC32, &[]),
        Part::group(1, &[2]),
        Part::block(Kind::SYMBOL, &[]),
        Part::symbol(b"start", 0),
        Part::end(),
        Part::hunk(2, Memory::Any),
        Part::block(Kind::DATA, &TABLE),
        Part::end(),
    ])?;
    fs::write(path, data)?;
    Ok(())
}
