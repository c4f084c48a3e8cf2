/// Words of a put-out record.
pub(crate) const RECORD: usize = 7;
/// Words of a tick report.
pub(crate) const REPORT: usize = 3;

/// What a market's store takes; fixed at construction, and never exceeded: a call that would is refused
/// ([`Refusal`](crate::Refusal)).
///
/// How to choose them, for R book events a second, a tick every T seconds and N connections:
///
/// - `events` at least R × (10 + T), since the log keeps ten seconds and is pruned at ticks alone, and what the lines hold beside it:
///   R × (10 + T) for each line that may wait or be pending at a time, at most `held` + 8. Else [`Refusal::Events`].
/// - `keys` at least the different prints of 30 + T seconds, `pairs` N times as many. Else [`Refusal::Prints`].
/// - `held` at least R × (10 + T), or a line that lines up late fails before its ten seconds are over. A line's own limit
///   ([`subscribe_with_limit`](crate::MarketMerge::subscribe_with_limit)) may be less.
/// - `lines` at least N and as many as may be replaced at a time: a failed line is one until it is dropped.
///
/// [`Refusal::Events`]: crate::Refusal::Events
/// [`Refusal::Prints`]: crate::Refusal::Prints
///
/// A store has 64 + lines × (7 × held + 64) + 3 × events + 4 × keys + 4 × pairs words of eight bytes, and its output list seven
/// words for each of lines × (2 × held + 8) + 1 records. Both are taken as zeroed memory, of which the system provides what is
/// written.
///
/// ```
/// use pollendrift::{Limits, MarketMerge, Refusal};
/// let small = Limits { lines: 4, held: 32, events: 128, keys: 32, pairs: 128 };
/// assert!(MarketMerge::<String>::new(small).is_ok());
/// let none = Limits { lines: 0, ..small };
/// assert_eq!(MarketMerge::<String>::new(none).unwrap_err(), Refusal::Limits);
/// ```
#[derive(Clone, Copy, Debug, PartialEq, Eq, Hash)]
pub struct Limits {
    /// L: lines, one for each subscribed connection, failed ones included; 1 to 16.
    pub lines: u64,
    /// H: the largest limit of a line, which is how many items it holds before a book event fails it, and how many prints; 1 to 5,000.
    pub held: u64,
    /// G: log entries and held items of all lines together; 1 to 1,048,576.
    pub events: u64,
    /// C: different prints that are counted at a time; 1 to 65,536.
    pub keys: u64,
    /// D: pairs of a print and a connection that delivered it; 1 to 65,536.
    pub pairs: u64,
}

impl Default for Limits {
    /// 16 lines, the original's 5,000 held messages a line, 131,072 events, 16,384 print keys and 65,536 pairs. The store is then
    /// 10.3 MB and the output list 9 MB at most.
    ///
    /// With a tick each second that is room for 11,900 book events a second while no line holds any, 4,600 while all 16 are full;
    /// for 528 new prints a second over four connections, 132 over sixteen.
    fn default() -> Self {
        Limits {
            lines: 16,
            held: 5_000,
            events: 131_072,
            keys: 16_384,
            pairs: 65_536,
        }
    }
}

impl Limits {
    /// Words of a store of limits in range.
    pub(crate) fn store_words(&self) -> usize {
        let lines = self.lines * (7 * self.held + 64);
        (64 + lines + 3 * self.events + 4 * self.keys + 4 * self.pairs) as usize
    }

    /// Words of an output list that takes whatever a call may put out.
    pub(crate) fn output_words(&self) -> usize {
        RECORD * (self.lines * (2 * self.held + 8) + 1) as usize
    }

    /// Words of a list of reports that takes one for each line.
    pub(crate) fn report_words(&self) -> usize {
        REPORT * self.lines as usize
    }
}
