use crate::{ConnId, Limits};

/// What a market's store says, for tests and support: [`MarketMerge::reading`](crate::MarketMerge::reading),
/// [`Store::reading`](crate::Store::reading).
///
/// The log, the held items of all lines, `keys` and `pairs` beside the limits tell how near a market is to a
/// [`Refusal`](crate::Refusal).
#[derive(Clone, Debug, PartialEq, Eq)]
pub struct Reading {
    /// The market's limits.
    pub limits: Limits,
    /// The number of the log's first event.
    pub base: u64,
    /// The number after the log's last: that of the next book event to be applied.
    pub end: u64,
    /// Prints that are counted now.
    pub keys: u64,
    /// Pairs of a print and a connection that delivered it.
    pub pairs: u64,
    /// The lines, by rising connection.
    pub lines: Vec<LineReading>,
}

/// A connection's line in a [`Reading`].
#[derive(Clone, Debug, PartialEq, Eq)]
pub struct LineReading {
    /// The connection.
    pub conn: ConnId,
    /// Waiting, pending, in line or failed.
    pub kind: Kind,
    /// The limit of its subscription: holding so many items, or prints, it fails at a book event, or a print, that it would hold too.
    pub limit: u64,
    /// Snapshots and book events that it holds. Snapshots are held above the limit too.
    pub items: usize,
    /// Prints that it holds.
    pub prints: usize,
}

/// A line's kind.
#[derive(Clone, Copy, Debug, PartialEq, Eq)]
pub enum Kind {
    /// Subscribed; the snapshots of both tokens have not come yet.
    Waiting,
    /// It holds its book events until they line up with the log.
    Pending,
    /// In line.
    InLine {
        /// The number of its next book event.
        next: u64,
        /// The tokens whose snapshot it still brings.
        due: [bool; 2],
    },
    /// Out of line until it subscribes again.
    Failed,
}
