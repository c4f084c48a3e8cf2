// A call with what any side needs of it, and what a side is.
use pollendrift::Limits;
use std::time::Instant;

pub type Key = (u64, u64);

#[derive(Clone, Copy)]
pub enum Call {
    Subscribe,
    Snapshot(usize),
    Book(Key),
    Print(Key),
    Drop,
    Tick,
}

#[derive(Clone, Copy)]
pub struct Timed {
    pub call: Call,
    pub conn: u64,
    pub message: u64,
    // the time in milliseconds, and the same as an Instant
    pub t: u64,
    pub at: Instant,
}

// What an answer adds to a side's sum, beside the messages that it puts out. Sides with equal sums answered alike.
pub const DONE: u64 = 1;
pub const APPLY: u64 = 2 << 32;
pub const DUPLICATE: u64 = 3 << 32;
pub const HELD: u64 = 4 << 32;
pub const IGNORED: u64 = 5 << 32;
pub const FAILED: u64 = 7 << 32;
pub const KEPT: u64 = 8 << 32;
pub const GONE: u64 = 9 << 32;
pub const REBUILD: u64 = 10 << 32;

pub trait Side {
    fn new(limits: Limits) -> Self;
    fn call(&mut self, call: &Timed) -> u64;
    // Calls one after the other; the sum of their answers.
    #[inline]
    fn calls(&mut self, calls: &[Timed]) -> u64 {
        calls.iter().fold(0, |sum, call| sum.wrapping_add(self.call(call)))
    }
    // A call that is not measured.
    fn prepare(&mut self, call: &Timed) -> u64 {
        self.call(call)
    }
}
