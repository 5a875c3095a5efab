//! Prints the symbols of a hunk file: symbols FILE

use std::{env, error::Error, fs};

fn main() -> Result<(), Box<dyn Error>> {
    let path = env::args().nth(1).ok_or("usage: symbols FILE")?;
    let data = fs::read(path)?;
    for symbol in hunk::read(&data)?.symbols() {
        let name = String::from_utf8_lossy(symbol.name);
        println!("hunk {} {:08x} {name}", symbol.hunk, symbol.value);
    }
    Ok(())
}
