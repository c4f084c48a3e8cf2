use crate::ffi;

/// A message's identity: two words.
///
/// The same message has the same key on every connection, and different messages have different ones; a key comes from a message's
/// content, see [`EventKey::of_json`] and [`EventKey::of_bytes`].
#[derive(Clone, Copy, Debug, PartialEq, Eq, PartialOrd, Ord, Hash)]
pub struct EventKey(u64, u64);

impl EventKey {
    /// The key of these two words.
    pub const fn new(first: u64, second: u64) -> Self {
        EventKey(first, second)
    }

    /// The key of a message's bytes, as the host lays them out: SipHash-1-3 under zero keys over them, and over the eight
    /// little-endian bytes of hexadecimal 9E3779B97F4A7C15 and them. For the bytes that the original's `canonical` writes it is the
    /// original's key.
    ///
    /// ```
    /// use pollendrift::EventKey;
    /// use std::hash::{DefaultHasher, Hasher};
    /// let bytes = b"\x03a message\xFF";
    /// let (mut first, mut second) = (DefaultHasher::new(), DefaultHasher::new());
    /// first.write(bytes);
    /// second.write(&[&0x9E37_79B9_7F4A_7C15_u64.to_le_bytes(), &bytes[..]].concat());
    /// let key = EventKey::new(first.finish(), second.finish());
    /// assert_eq!(EventKey::of_bytes(bytes), key);
    /// ```
    pub fn of_bytes(bytes: &[u8]) -> Self {
        let (mut first, mut second) = (0, 0);
        // SAFETY: the key function takes any bytes; `bytes` and both words are apart.
        unsafe { ffi::merge_key(bytes.as_ptr(), bytes.len(), &mut first, &mut second) };
        EventKey(first, second)
    }

    /// The two words.
    #[inline]
    pub const fn words(self) -> (u64, u64) {
        (self.0, self.1)
    }
}
