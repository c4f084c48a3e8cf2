// The exported calls of crates/json_exports.
extern "C" {
    fn json_refusal(text: *const u8, length: usize) -> u64;
    fn json_canonical(text: *const u8, length: usize, out: *mut u8, room: usize, count: &mut u64) -> u64;
    fn json_key(text: *const u8, length: usize, key0: &mut u64, key1: &mut u64) -> u64;
    fn json_long_key(text: *const u8, length: usize, key0: &mut u64, key1: &mut u64) -> u64;
}

pub const LONGEST: usize = 32_768;
pub const ROOM: usize = 163_840;

pub fn refusal(text: &[u8]) -> u64 {
    // SAFETY: the call takes any bytes.
    unsafe { json_refusal(text.as_ptr(), text.len()) }
}

// How many bytes were written, or the refusal's number.
pub fn canonical(text: &[u8], out: &mut [u8]) -> Result<usize, u64> {
    let mut count = 0;
    // SAFETY: the call takes any bytes and any output; the three are apart.
    match unsafe { json_canonical(text.as_ptr(), text.len(), out.as_mut_ptr(), out.len(), &mut count) } {
        1 => Ok(count as usize),
        _ => Err(count),
    }
}

// The key's two words, or the refusal's number.
pub fn key(text: &[u8]) -> Result<(u64, u64), u64> {
    let (mut first, mut second) = (0, 0);
    // SAFETY: the call takes any bytes; the three are apart.
    match unsafe { json_key(text.as_ptr(), text.len(), &mut first, &mut second) } {
        1 => Ok((first, second)),
        _ => Err(first),
    }
}

// The same by the call for long messages.
pub fn long_key(text: &[u8]) -> Result<(u64, u64), u64> {
    let (mut first, mut second) = (0, 0);
    // SAFETY: the call takes any bytes; the three are apart.
    match unsafe { json_long_key(text.as_ptr(), text.len(), &mut first, &mut second) } {
        1 => Ok((first, second)),
        _ => Err(first),
    }
}
