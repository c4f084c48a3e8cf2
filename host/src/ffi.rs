//! The exported functions of `crates/exports`, `crates/owned`, `crates/depth_exports` and `crates/json_exports`. A slice is a pointer and a length; the slices
//! and pointers of one call may not overlap. The answer of a call is a code, see `codes.rs`.
//!
//! The `owned_` functions ask for a sound store and do not test it: words that setup made and that nobody but they wrote since. Those of a
//! depth ask for a sound side: one that was empty and that nobody but they wrote since.

extern "C" {
    pub fn merge_setup(
        store: *mut u64,
        words: usize,
        lines: u64,
        held: u64,
        events: u64,
        keys: u64,
        pairs: u64,
        start: u64,
        count: &mut u64,
    ) -> u64;
    pub fn owned_subscribe(
        store: *mut u64,
        words: usize,
        conn: u64,
        limit: u64,
        time: u64,
        count: &mut u64,
    ) -> u64;
    pub fn owned_snapshot(
        store: *mut u64,
        words: usize,
        out: *mut u64,
        room: usize,
        conn: u64,
        token: u64,
        message: u64,
        time: u64,
        count: &mut u64,
    ) -> u64;
    pub fn owned_book_event(
        store: *mut u64,
        words: usize,
        out: *mut u64,
        room: usize,
        conn: u64,
        key0: u64,
        key1: u64,
        message: u64,
        time: u64,
        count: &mut u64,
    ) -> u64;
    pub fn owned_print(
        store: *mut u64,
        words: usize,
        out: *mut u64,
        room: usize,
        conn: u64,
        key0: u64,
        key1: u64,
        message: u64,
        time: u64,
        count: &mut u64,
    ) -> u64;
    pub fn owned_drop(
        store: *mut u64,
        words: usize,
        out: *mut u64,
        room: usize,
        conn: u64,
        time: u64,
        count: &mut u64,
    ) -> u64;
    pub fn owned_promote(
        store: *mut u64,
        words: usize,
        out: *mut u64,
        room: usize,
        time: u64,
        count: &mut u64,
    ) -> u64;
    pub fn owned_reset(store: *mut u64, words: usize, time: u64, count: &mut u64) -> u64;
    pub fn owned_tick(
        store: *mut u64,
        words: usize,
        out: *mut u64,
        room: usize,
        reports: *mut u64,
        report_room: usize,
        answers: *const u64,
        answered: usize,
        time: u64,
        count: &mut u64,
        reported: &mut u64,
    ) -> u64;
    pub fn owned_in_line(store: *const u64, words: usize, conn: u64) -> bool;
    pub fn owned_any_in_line(store: *const u64, words: usize) -> bool;
    pub fn owned_servable(store: *const u64, words: usize) -> bool;
    pub fn merge_key(bytes: *const u8, length: usize, key0: &mut u64, key1: &mut u64);
}

#[cfg(feature = "depth")]
extern "C" {
    pub fn owned_depth_set(
        prices: &mut [u32; 512],
        sizes: &mut [f64; 512],
        count: usize,
        bid: bool,
        price: u32,
        size: f64,
        left: &mut u64,
    ) -> u64;
    pub fn owned_depth_trim(
        prices: &[u32; 512],
        count: usize,
        bid: bool,
        reported: bool,
        best: u32,
    ) -> usize;
    pub fn owned_depth_bid_from(
        prices: &[u32; 512],
        sizes: &[f64; 512],
        count: usize,
        floor: u32,
    ) -> f64;
    pub fn owned_depth_ask_to(
        prices: &[u32; 512],
        sizes: &[f64; 512],
        count: usize,
        ceiling: u32,
    ) -> f64;
}

#[cfg(feature = "json")]
extern "C" {
    pub fn json_canonical(
        text: *const u8,
        length: usize,
        out: *mut u8,
        room: usize,
        count: &mut u64,
    ) -> u64;
    pub fn json_key(text: *const u8, length: usize, key0: &mut u64, key1: &mut u64) -> u64;
}
