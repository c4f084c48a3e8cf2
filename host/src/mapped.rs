//! Zeroed words in memory of their own: the system provides what is written, and has it back when they are dropped. An allocator
//! may keep what is freed, and has to write zeros over what it hands out again.
use std::alloc::{handle_alloc_error, Layout};
use std::ffi::{c_int, c_void};
use std::ops::{Deref, DerefMut};
use std::ptr::NonNull;

// Of Linux.
const READ_WRITE: c_int = 3;
const PRIVATE_ANONYMOUS: c_int = 0x22;

extern "C" {
    fn mmap(
        at: *mut c_void,
        bytes: usize,
        access: c_int,
        kind: c_int,
        file: c_int,
        from: i64,
    ) -> *mut c_void;
    fn munmap(at: *mut c_void, bytes: usize) -> c_int;
}

/// Words that are mapped for this value alone.
pub struct Words {
    start: NonNull<u64>,
    len: usize,
}

// SAFETY: a `Words` owns its mapping, like a boxed slice.
unsafe impl Send for Words {}
// SAFETY: a shared `Words` is only read.
unsafe impl Sync for Words {}

impl Words {
    /// So many zeros; at least one.
    pub fn zeroed(len: usize) -> Words {
        let layout = Layout::array::<u64>(len).expect("a size in range");
        // SAFETY: a new mapping, of nothing that exists.
        let start = unsafe {
            mmap(
                std::ptr::null_mut(),
                layout.size(),
                READ_WRITE,
                PRIVATE_ANONYMOUS,
                -1,
                0,
            )
        };
        // A failure is the address -1, and a mapping starts at a page.
        match NonNull::new(start.cast::<u64>()) {
            Some(start) if start.is_aligned() => Words { start, len },
            _ => handle_alloc_error(layout),
        }
    }
}

impl Drop for Words {
    fn drop(&mut self) {
        // SAFETY: the mapping is this value's, of this length, and nobody has a reference into it any more.
        unsafe { munmap(self.start.as_ptr().cast(), 8 * self.len) };
    }
}

impl Deref for Words {
    type Target = [u64];

    #[inline]
    fn deref(&self) -> &[u64] {
        // SAFETY: the mapping has so many words, zeroed by the system; `self` is lent for as long as the slice.
        unsafe { std::slice::from_raw_parts(self.start.as_ptr(), self.len) }
    }
}

impl DerefMut for Words {
    #[inline]
    fn deref_mut(&mut self) -> &mut [u64] {
        // SAFETY: as above, and `self` is lent mutably.
        unsafe { std::slice::from_raw_parts_mut(self.start.as_ptr(), self.len) }
    }
}
