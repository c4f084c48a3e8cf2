// Prints the lines that crates/keys_vectors has to write: each message's length, and the two words of its key by Rust's
// standard hasher. The rules that make the messages are those of crates/keys_vectors/src/main.rt.
use std::collections::hash_map::DefaultHasher;
use std::hash::Hasher;

const PREFIX: u64 = 0x9E37_79B9_7F4A_7C15;

fn hash(bytes: &[u8]) -> u64 {
    let mut hasher = DefaultHasher::new();
    hasher.write(bytes);
    hasher.finish()
}

fn line(message: &[u8]) {
    let prefixed = [&PREFIX.to_le_bytes()[..], message].concat();
    println!("{} {} {}", message.len(), hash(message), hash(&prefixed));
}

fn next(x: u64) -> u64 {
    let a = x ^ (x << 13);
    let b = a ^ (a >> 7);
    b ^ (b << 17)
}

fn main() {
    // Lengths 0 to 64: byte i is i.
    for n in 0..=64usize {
        line(&(0..n).map(|i| i as u8).collect::<Vec<u8>>());
    }
    // Around 256 and 65,536: byte i is (i * 7 + 3) % 256.
    for n in [254usize, 255, 256, 257, 65535, 65536] {
        line(&(0..n).map(|i| ((i * 7 + 3) % 256) as u8).collect::<Vec<u8>>());
    }
    // Twenty messages out of xorshift64 from seed 1: a length below 1,000, then the bytes.
    let mut x = 1u64;
    for _ in 0..20 {
        x = next(x);
        let mut message = vec![0u8; (x % 1000) as usize];
        for byte in message.iter_mut() {
            x = next(x);
            *byte = (x % 256) as u8;
        }
        line(&message);
    }
}
