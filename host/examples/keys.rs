//! Keys of JSON messages: one message a line from standard input; its key, or why it has none.
//!
//!     cargo run --example keys < messages
use pollendrift::EventKey;
use std::io::BufRead;

fn main() -> std::io::Result<()> {
    for line in std::io::stdin().lock().split(b'\n') {
        match EventKey::of_json(&line?) {
            Ok(key) => {
                let (first, second) = key.words();
                println!("{first:016x}{second:016x}");
            }
            Err(refusal) => println!("{refusal}"),
        }
    }
    Ok(())
}
