//! What a call of a [`Store`](crate::Store) answers, as docs/LAYOUT.md numbers it.

/// The call was refused and changed nothing; [`Told::count`](crate::Told::count) is the refusal's number.
pub const REFUSED: u64 = 0;
/// A subscription, a reset or a tick was done.
pub const DONE: u64 = 1;
/// The records are to be applied, in order.
pub const APPLY: u64 = 2;
/// A copy of what was applied already.
pub const DUPLICATE: u64 = 3;
/// Held until the connection is in line; or a snapshot that just put it in line, with nothing to apply.
pub const HELD: u64 = 4;
/// The connection is not subscribed or failed, or the snapshot is not due.
pub const IGNORED: u64 = 5;
/// The book event disagrees with the log at the connection's place; nothing changed.
pub const DIVERGED: u64 = 6;
/// The connection just failed, and has to subscribe again.
pub const FAILED: u64 = 7;
/// Another connection is in line, or the dropped one was not.
pub const KEPT: u64 = 8;
/// No connection is in line and none holds a snapshot.
pub const GONE: u64 = 9;
/// A connection that held a snapshot took over: the book is rebuilt from the records.
pub const REBUILD: u64 = 10;
