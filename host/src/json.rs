use crate::ffi;
use crate::EventKey;
use std::fmt;

/// Why a message has no key.
///
/// The numbers are those of request 4 of document 02. Its refusal 3, a short output, cannot come up: the output is of the least length.
#[derive(Clone, Copy, Debug, PartialEq, Eq, Hash)]
pub enum JsonRefusal {
    /// 15: longer than 32,768 bytes, or not one JSON text (RFC 8259). Bad UTF-8 and a lone surrogate are no JSON text.
    Text = 15,
    /// 16: a number that is not whole, has a fraction or an exponent, is outside −2^63 to 2^64 − 1, or is minus zero.
    Number = 16,
    /// 17: arrays and objects nested deeper than 16. Of 16 and 17, the first by position in the message.
    Depth = 17,
}

impl JsonRefusal {
    /// The number of this refusal in document 02.
    pub const fn number(self) -> u64 {
        self as u64
    }

    #[cold]
    fn of(number: u64) -> Self {
        use JsonRefusal::*;
        [Text, Number, Depth]
            .into_iter()
            .find(|refusal| refusal.number() == number)
            .unwrap_or_else(|| unreachable!("refusal {number} of a message"))
    }
}

impl fmt::Display for JsonRefusal {
    fn fmt(&self, f: &mut fmt::Formatter<'_>) -> fmt::Result {
        let meaning = match self {
            JsonRefusal::Text => "longer than 32,768 bytes, or not one JSON text",
            JsonRefusal::Number => "a number outside the rule",
            JsonRefusal::Depth => "nested deeper than 16",
        };
        write!(f, "refused {}: {meaning}", self.number())
    }
}

impl std::error::Error for JsonRefusal {}

/// The least output of the call, in bytes.
const ROOM: usize = 163_840;

/// The canonical bytes of a JSON message: those that the original's `canonical` writes. Two messages have the same bytes exactly when
/// they hold the same content; of a repeated key the last item counts.
///
/// ```
/// use pollendrift::canonical_bytes;
/// assert_eq!(canonical_bytes(br#"{"b":true,"a":[]}"#).unwrap(), b"\x05\x02\0\0\0\0\0\0\0a\xFF\x04\0\0\0\0\0\0\0\0b\xFF\x01\x01");
/// ```
///
/// # Errors
///
/// Where the message is refused.
pub fn canonical_bytes(message: &[u8]) -> Result<Vec<u8>, JsonRefusal> {
    let mut out = vec![0; ROOM];
    let mut count = 0;
    // SAFETY: the call takes any bytes and any output; the three are apart.
    let done = unsafe {
        ffi::json_canonical(
            message.as_ptr(),
            message.len(),
            out.as_mut_ptr(),
            out.len(),
            &mut count,
        )
    };
    if done == 0 {
        return Err(JsonRefusal::of(count));
    }
    out.truncate(count as usize);
    Ok(out)
}

impl EventKey {
    /// The key of a JSON message: of its canonical bytes, as the original's `EventKey::of` has it.
    ///
    /// ```
    /// use pollendrift::EventKey;
    /// let key = EventKey::of_json(br#"{"price":"0.52","side":"BUY"}"#).unwrap();
    /// assert_eq!(key, EventKey::of_json(b"{\"side\": \"\\u0042UY\", \"price\": \"0.52\"}").unwrap());
    /// assert!(EventKey::of_json(b"{\"price\": 0.52}").is_err());
    /// ```
    ///
    /// # Errors
    ///
    /// Where the message is refused.
    pub fn of_json(message: &[u8]) -> Result<Self, JsonRefusal> {
        let (mut first, mut second) = (0, 0);
        // SAFETY: the call takes any bytes; the three are apart.
        let done =
            unsafe { ffi::json_key(message.as_ptr(), message.len(), &mut first, &mut second) };
        if done == 0 {
            return Err(JsonRefusal::of(first));
        }
        Ok(EventKey::new(first, second))
    }
}
