//! Keys beside those of the standard hasher, as the original makes them.
use pollendrift::EventKey;
use std::collections::hash_map::DefaultHasher;
use std::hash::Hasher;

fn hash(bytes: &[u8]) -> u64 {
    let mut hasher = DefaultHasher::new();
    hasher.write(bytes);
    hasher.finish()
}

#[test]
fn of_bytes_of_every_length() {
    let bytes: Vec<u8> = (0..1_000_u32).map(|i| (i * i + 7 * i) as u8).collect();
    for length in (0..130).chain([255, 256, 257, 1_000]) {
        let message = &bytes[..length];
        let second = [&0x9E37_79B9_7F4A_7C15_u64.to_le_bytes(), message].concat();
        let key = EventKey::new(hash(message), hash(&second));
        assert_eq!(EventKey::of_bytes(message), key, "{length} bytes");
    }
}
