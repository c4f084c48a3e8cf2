// main LISTS|SECONDSs SEED: runs the same random call lists on the original (edited, see edit.rs) and on the proved calls, and
// compares after every call the answer, the records, the reports and the reading of the whole store.
// main store FOLDER LISTS SEED: writes lists with what the original answers, chosen of so many.
// main check FOLDER: compares the answers of stored lists with the original's.
#![allow(dead_code)]
mod calling;
mod coverage;
mod exported;
mod failing;
mod lists;
mod markets;
mod merge;
mod original;
mod random;
mod reading;
mod refusals;
mod shim;
mod shrinking;
mod sides;
mod sound;
mod stored;
mod text;
mod words;
mod writing;

use coverage::Seen;
use random::Random;
use std::process::exit;
use std::time::{Duration, Instant};

// So many lists see all that 01 has.
const ENOUGH: u64 = 2_000;

fn usage() -> ! {
    eprintln!("usage: main LISTS|SECONDSs SEED, or main store FOLDER LISTS SEED, or main check FOLDER");
    exit(2)
}

fn number(text: &str) -> u64 {
    text.parse().unwrap_or_else(|_| usage())
}

// Compares so many lists, or as many as the time allows.
fn compare(count: u64, time: Duration, seed: u64) {
    let begin = Instant::now();
    let mut seen = Seen::new();
    let (mut i, mut made) = (0, 0);
    while i < count && begin.elapsed() < time {
        let mut r = Random::part(seed, i);
        let mut s = lists::setup(&mut r, i);
        let steps = lists::list(&mut r, &mut s, 25, 3);
        made += steps.len();
        seen.list(s.limits, s.from.is_some());
        if sides::run(&s, &steps, &mut seen).is_err() {
            let (s, least) = shrinking::shrink(&s, &steps);
            let (at, why) = sides::run(&s, &least, &mut Seen::new()).expect_err("a shrunk list differs");
            println!("DIFFERENT: seed {seed}, list {i}, call {} of\n{}{why}", at + 1, text::list(&s, &least));
            println!("found after {:.1} s", begin.elapsed().as_secs_f64());
            exit(1);
        }
        i += 1;
    }
    let mut none = seen.table();
    none.extend(seen.lists());
    none.extend(seen.limited());
    seen.changes();
    println!("same: seed {seed}, {i} lists, {made} calls, {:.0} s", begin.elapsed().as_secs_f64());
    if i >= ENOUGH && !none.is_empty() {
        println!("NOT SEEN: {}", none.join("; "));
        exit(1);
    }
}

fn main() {
    let args: Vec<String> = std::env::args().skip(1).collect();
    let args: Vec<&str> = args.iter().map(String::as_str).collect();
    match args[..] {
        ["store", folder, count, seed] => stored::write(folder, number(count), number(seed)),
        ["check", folder] => stored::check(folder),
        [count, seed] => match count.strip_suffix('s') {
            Some(seconds) => compare(u64::MAX, Duration::from_secs(number(seconds)), number(seed)),
            None => compare(number(count), Duration::MAX, number(seed)),
        },
        _ => usage(),
    }
}
