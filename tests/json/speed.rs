// Nanoseconds a message, from its bytes to its key: the proved call beside serde_json, the original's `canonical` and std's hasher. Of
// venue-like messages, and of the worst inputs of 32,768 bytes beside a venue-like one of that length. Prints tables in Markdown.
#[path = "exported.rs"]
#[allow(dead_code)]
mod exported;
#[path = "loads.rs"]
mod loads;
#[path = "original.rs"]
#[allow(dead_code)]
mod original;
#[path = "../oracle/random.rs"]
#[allow(dead_code)]
mod random;

use std::hint::black_box;
use std::time::Instant;

fn proved(message: &[u8]) -> (u64, u64) {
    exported::key(black_box(message)).expect("an accepted message")
}

fn original(message: &[u8]) -> (u64, u64) {
    let value: serde_json::Value = serde_json::from_slice(black_box(message)).expect("a JSON text");
    let key = original::EventKey::of(&value);
    (key.0, key.1)
}

// The least of many rounds, each of about a millisecond.
fn nanoseconds(call: fn(&[u8]) -> (u64, u64), message: &[u8], rounds: usize) -> f64 {
    let start = Instant::now();
    black_box(call(message));
    let times = (1_000_000 / start.elapsed().as_nanos().max(1) as usize).clamp(1, 4000);
    let mut least = f64::MAX;
    for _ in 0..rounds {
        let start = Instant::now();
        for _ in 0..times {
            black_box(call(message));
        }
        least = least.min(start.elapsed().as_nanos() as f64 / times as f64);
    }
    least
}

fn main() {
    let rounds = std::env::args().nth(1).map_or(200, |a| a.parse().expect("a number"));
    println!("| message | bytes | proved, ns | original, ns | original / proved |");
    println!("|---|---|---|---|---|");
    for length in [300, 3_000, 30_000] {
        let message = loads::venue(length);
        assert_eq!(proved(&message), original(&message));
        let (mut here, mut there) = (f64::MAX, f64::MAX);
        // in turns, so that both meet the same machine
        for _ in 0..5 {
            here = here.min(nanoseconds(proved, &message, rounds / 5));
            there = there.min(nanoseconds(original, &message, rounds / 5));
        }
        println!("| venue-like | {} | {here:.0} | {there:.0} | {:.2} |", message.len(), there / here);
    }
    println!();
    let mut plain = loads::venue(32_768);
    plain.resize(32_768, b' ');
    let mut messages = vec![("venue-like, the plain one", plain)];
    messages.extend(loads::worst());
    let mut least = vec![(f64::MAX, f64::MAX); messages.len()];
    // in several passes, so that all meet the same machine
    for _ in 0..10 {
        for ((name, message), (here, there)) in messages.iter().zip(&mut least) {
            assert_eq!(message.len(), 32_768);
            assert_eq!(proved(message), original(message), "{name}");
            *here = here.min(nanoseconds(proved, message, rounds / 10));
            *there = there.min(nanoseconds(original, message, rounds / 10));
        }
    }
    println!("| 32,768 bytes | proved, µs | times the plain one | original, µs |");
    println!("|---|---|---|---|");
    let base = least[0].0;
    for ((name, _), (here, there)) in messages.iter().zip(least) {
        println!("| {name} | {:.1} | {:.2} | {:.1} |", here / 1000.0, here / base, there / 1000.0);
    }
}
