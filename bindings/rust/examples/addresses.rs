//! Prints the symbols of a load file in the order of their addresses: addresses FILE [BASE]
//!
//! The hunks lie one after the other from the address BASE on, in hexadecimal, or from 0 on. Names that two symbols have are
//! printed twice.

use std::{env, error::Error, fs};

fn main() -> Result<(), Box<dyn Error>> {
    let mut words = env::args().skip(1);
    let path = words.next().ok_or("usage: addresses FILE [BASE]")?;
    let base = words.next().map_or(Ok(0), |it| u32::from_str_radix(&it, 16))?;

    // Files without END, or with short relocations, are read in their plain spelling.
    let data = fs::read(path)?;
    let plain = hunk::Plain::of(&data);
    let file = plain.read()?;
    if file.is_object() {
        return Err("an object file has no addresses yet".into());
    }
    let mut next = base;
    let place = |it: &hunk::Hunk| {
        let start = next;
        next = next.wrapping_add(it.size as u32);
        start
    };
    let bases: Vec<u32> = file.hunks().iter().map(place).collect();
    let address = |it: &hunk::Symbol| bases[it.hunk as usize].wrapping_add(it.value);
    let mut symbols = file.symbols().to_vec();
    symbols.sort_by_key(address);
    for it in &symbols {
        println!("{:08x} {}", address(it), String::from_utf8_lossy(it.name));
    }
    Ok(())
}
