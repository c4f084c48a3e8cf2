// The key of a message's bytes, by two DefaultHashers as the original has it, and by the proved function.
use pollendrift::EventKey;
use std::hash::{DefaultHasher, Hasher};

pub const LENGTHS: [usize; 3] = [64, 512, 4_096];
const SECOND: u64 = 0x9E37_79B9_7F4A_7C15;
const CALLS: usize = 2_000;

#[inline(never)]
fn measured_hashers(bytes: &mut [u8]) -> u64 {
    let mut sum = 0u64;
    for i in 0..CALLS {
        bytes[8] = i as u8;
        let (mut a, mut b) = (DefaultHasher::new(), DefaultHasher::new());
        a.write(&bytes[8..]);
        b.write(bytes);
        sum = sum.wrapping_add(a.finish()).wrapping_add(b.finish());
    }
    sum
}

#[inline(never)]
fn measured_key(bytes: &mut [u8]) -> u64 {
    let mut sum = 0u64;
    for i in 0..CALLS {
        bytes[8] = i as u8;
        let (a, b) = EventKey::of_bytes(&bytes[8..]).words();
        sum = sum.wrapping_add(a).wrapping_add(b);
    }
    sum
}

// Calls, and their sum.
pub fn run(length: usize, proved: bool) -> (usize, u64) {
    let mut bytes = SECOND.to_ne_bytes().to_vec();
    bytes.extend((0..length).map(|i| i as u8));
    let sum = if proved { measured_key(&mut bytes) } else { measured_hashers(&mut bytes) };
    (CALLS, sum)
}
