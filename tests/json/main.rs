// The proved calls beside the reference, and beside serde_json and the original's `canonical` where those are at hand, on random messages.
// MESSAGES SEED
#[path = "exported.rs"]
#[allow(dead_code)]
mod exported;
#[path = "messages.rs"]
mod messages;
#[cfg(serde)]
#[path = "original.rs"]
#[allow(dead_code)]
mod original;
#[path = "../oracle/random.rs"]
#[allow(dead_code)]
mod random;
#[path = "reference.rs"]
mod reference;

use exported::{canonical, key, long_key, refusal, ROOM};
use random::Random;
use std::collections::BTreeMap;
use std::hash::{DefaultHasher, Hasher};

fn different(what: &str, message: &[u8], here: &dyn std::fmt::Debug, there: &dyn std::fmt::Debug) -> ! {
    println!("DIFFERENT: {what}: {} is {here:?}, and {there:?}", message.escape_ascii());
    std::process::exit(1)
}

// The key of canonical bytes, by std's hasher.
fn key_of(bytes: &[u8]) -> (u64, u64) {
    let (mut first, mut second) = (DefaultHasher::new(), DefaultHasher::new());
    first.write(bytes);
    second.write(&[&0x9E37_79B9_7F4A_7C15_u64.to_le_bytes(), bytes].concat());
    (first.finish(), second.finish())
}

// The message with a digit behind each point of a long number that has none there: serde_json 1.0.87 reads such numbers.
#[cfg(serde)]
fn pointed(message: &[u8]) -> Vec<u8> {
    let mut out = Vec::new();
    let mut digits = 0;
    for (i, &b) in message.iter().enumerate() {
        out.push(b);
        if b == b'.' && digits > 15 && !message.get(i + 1).is_some_and(u8::is_ascii_digit) {
            out.push(b'0');
        }
        digits = if b.is_ascii_digit() { digits + 1 } else { 0 };
    }
    out
}

// serde_json's reading and the original's canonical bytes and key. Where they part as docs/DIFFERENCES.md says, the kind is counted.
#[cfg(serde)]
fn beside_serde(message: &[u8], here: &Result<Vec<u8>, u64>, parted: &mut BTreeMap<&'static str, u64>) {
    let read = serde_json::from_slice::<serde_json::Value>(message);
    match (here, read) {
        (Ok(bytes), Ok(value)) => {
            let mut there = Vec::new();
            original::canonical(&value, &mut there);
            if bytes != &there {
                different("canonical", message, bytes, &there);
            }
            let words = original::EventKey::of(&value);
            if key_of(bytes) != (words.0, words.1) {
                different("key", message, &key_of(bytes), &words);
            }
        }
        (Err(15), Err(_)) => {}
        (Err(15), Ok(_)) if message.len() > exported::LONGEST => *parted.entry("longer than 32,768 bytes").or_default() += 1,
        (Err(15), Ok(_)) if reference::canonical(&pointed(message)) == Err(16) => *parted.entry("15, a long number with no digit behind its point").or_default() += 1,
        (Err(16), Ok(_)) => *parted.entry("16, which serde_json reads as a float").or_default() += 1,
        (Err(16), Err(e)) if e.to_string().contains("number out of range") => *parted.entry("16, out of serde_json's range").or_default() += 1,
        (Err(17), Ok(_)) => *parted.entry("17, which serde_json reads").or_default() += 1,
        (Err(16 | 17), Err(e)) if e.to_string().contains("recursion limit") || e.to_string().contains("number out of range") => {
            *parted.entry("16 or 17, too deep or out of range for serde_json").or_default() += 1
        }
        (here, there) => different("read", message, here, &there.map_err(|e| e.to_string())),
    }
}

#[cfg(not(serde))]
fn beside_serde(_: &[u8], _: &Result<Vec<u8>, u64>, _: &mut BTreeMap<&'static str, u64>) {}

fn main() {
    let mut args = std::env::args().skip(1).map(|a| a.parse::<u64>().expect("a number"));
    let count = args.next().unwrap_or(1_000_000);
    let seed = args.next().unwrap_or(1);
    let mut maker = messages::Maker::new(Random::new(seed));
    let mut places = Random::new(seed ^ 0xA5);
    let mut out: Vec<u8> = (0..ROOM + 64).map(|_| places.next() as u8).collect();
    let mut before = out.clone();
    let mut answers: BTreeMap<u64, u64> = BTreeMap::new();
    let mut parted = BTreeMap::new();
    let mut longest = 0;
    for i in 0..count {
        let message = maker.message().to_vec();
        longest = longest.max(message.len());
        let expected = reference::canonical(&message);
        let number = expected.as_ref().err().copied().unwrap_or(0);
        *answers.entry(number).or_default() += 1;
        if refusal(&message) != number {
            different("refusal", &message, &refusal(&message), &number);
        }
        // an output of the least length or longer, and now and then one that is too short
        let short = i % 64 == 0;
        let room = if short { places.below(ROOM as u64) as usize } else { ROOM + (i % 65) as usize };
        let room = room.min(out.len());
        let answer = canonical(&message, &mut out[..room]);
        let written = match (&answer, &expected) {
            (Err(3), _) if short => 0,
            (Ok(n), Ok(bytes)) if !short && out[..*n] == bytes[..] => *n,
            (Err(a), Err(b)) if !short && a == b => 0,
            _ => different("canonical", &message, &answer, &expected),
        };
        if out[written..] != before[written..] {
            different("places behind the bytes", &message, &answer, &expected);
        }
        before[..written].copy_from_slice(&out[..written]);
        let words = expected.as_ref().map(|bytes| key_of(bytes)).map_err(|e| *e);
        if key(&message) != words {
            different("key", &message, &key(&message), &words);
        }
        if long_key(&message) != words {
            different("long key", &message, &long_key(&message), &words);
        }
        beside_serde(&message, &expected, &mut parted);
    }
    if count >= 100_000 && [0, 15, 16, 17].iter().any(|n| !answers.contains_key(n)) {
        println!("DIFFERENT: not every answer was seen: {answers:?}");
        std::process::exit(1);
    }
    let beside = if cfg!(serde) { "the reference, serde_json and the original" } else { "the reference" };
    println!("same: {count} messages of seed {seed}, the longest of {longest} bytes, beside {beside}; answers {answers:?}");
    for (kind, times) in parted {
        println!("    parted as intended: {kind}: {times}");
    }
}
