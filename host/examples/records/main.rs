//! Reads a call list and prints each answer with the book's records, as the replay program does, but for the numbers of book
//! events, which a host is not given: `put CONN KIND KEY KEY MESSAGE TIMES`.
//!
//!     cargo run --example records < ../tests/lists/take-over.calls
mod calls;

use std::io::BufRead;

fn main() {
    let mut desk = calls::Desk::new();
    for (i, line) in std::io::stdin().lock().lines().enumerate() {
        let line = line.expect("standard input is text");
        match desk.call(&line) {
            Ok(wrote) => wrote.iter().for_each(|text| println!("{text}")),
            Err(why) => {
                eprintln!("line {}: {why}", i + 1);
                std::process::exit(1);
            }
        }
    }
}
