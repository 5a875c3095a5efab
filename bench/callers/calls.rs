//! calls FILE..: as calls.c, by the package of bindings/rust.

use std::{env, fs, hint::black_box};

const ROUNDS: u32 = 25;
const LEAST: i64 = 4000;

extern "C" {
    fn clock() -> i64;
}

fn took(act: &mut dyn FnMut(), times: u32) -> i64 {
    // SAFETY: it takes nothing, and answers microseconds of the processor.
    let start = unsafe { clock() };
    for _ in 0..times {
        act();
    }
    // SAFETY: as above.
    (unsafe { clock() }) - start
}

fn print(file: &str, what: &str, act: &mut dyn FnMut()) {
    let mut times = 1;
    while took(act, times) < LEAST {
        times *= 2;
    }
    let least = (0..ROUNDS).map(|_| took(act, times)).min().unwrap();
    println!("{file} {what} {:.2}", least as f64 / f64::from(times));
}

fn main() {
    for path in env::args().skip(1) {
        let data = fs::read(&path).unwrap();
        print(&path, "load", &mut || drop(black_box(hunk::load_packed(&data, 0x1000, hunk::BUDGET))));
        print(&path, "read", &mut || drop(black_box(hunk::read(&data))));
        let file = hunk::read(&data).unwrap();
        if path == "symbols" {
            print(&path, "list", &mut || assert!(!black_box(hunk::read(&data).unwrap()).symbols().is_empty()));
            print(&path, "rows", &mut || {
                black_box(file.symbols().iter().map(|it| u64::from(it.value) + it.name.len() as u64).sum::<u64>());
            });
        } else {
            print(&path, "list", &mut || assert!(!black_box(hunk::read(&data).unwrap()).relocations().is_empty()));
            print(&path, "rows", &mut || {
                black_box(file.relocations().iter().map(|it| u64::from(it.offset) + u64::from(it.target)).sum::<u64>());
            });
        }
    }
}
