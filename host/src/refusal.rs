/// Why a call was refused. A refused call changed nothing: **its message was not taken**, and the venue does not send it again on that
/// connection. Each case says what the host has to do; `examples/recovering` does it.
///
/// 'Subscribe it again' is: [`drop_conn`] at once, so that its later messages are ignored and none of them hides the gap, and
/// [`promote`] if that answers `Kept`; at the next tick a new subscription at the venue; then [`subscribe`]. [`subscribe`] alone is not
/// enough: it leaves the log as it is, also where the connection was the only one in line.
///
/// Document 01 numbers the refusals, and request 5 of document 02 the last; [`Refusal::number`] is that number. The numbers 1 (unsound
/// store), 3 (short output list) and 11 (view answers) cannot come up here: the store and the lists belong to
/// [`MarketMerge`](crate::MarketMerge). Of a [`Store`](crate::Store), whose [`Told`](crate::Told) has the number itself, 11 can: its host
/// gives the view answers. 12 to 17 are [`LevelRefusal`](crate::LevelRefusal) and [`JsonRefusal`](crate::JsonRefusal).
///
/// [`drop_conn`]: crate::MarketMerge::drop_conn
/// [`promote`]: crate::MarketMerge::promote
/// [`subscribe`]: crate::MarketMerge::subscribe
#[derive(Clone, Copy, Debug, PartialEq, Eq, Hash)]
pub enum Refusal {
    /// 2: a limit is outside its range (construction). Choose limits in range.
    Limits = 2,
    /// 4: a new connection subscribes, and all lines are taken, failed ones included. Drop a connection that failed or closed. The new
    /// one's messages were ignored meanwhile, its snapshots too: subscribe it again.
    Lines = 4,
    /// 5: the log and all held items together are at the event limit (a book event, or a snapshot of a waiting line). Tick at once,
    /// so that old log entries go, and make the same call again before any other of that connection. If it is refused again, the
    /// connection has missed a message: subscribe it again.
    Events = 5,
    /// 6: the line's item area is full (a snapshot of a waiting line). Subscribe the connection again.
    Items = 6,
    /// 7: the print needs a key row or a count row, and none is free. Tick at once and make the same call again. If it is refused
    /// again, keep the print and try after each later tick, for ten seconds at most; then the traded volume is short by it. Not for
    /// longer: a print's rows go when nobody delivered it for thirty seconds, and a copy after that would count as a new print.
    Prints = 7,
    /// 8: the connection delivered this print 2^32 − 1 times. The host's keys do not tell messages apart; nothing helps but other keys.
    Copies = 8,
    /// 9: the log's end and all held items together are at 2^64 − 1, so that numbers could run out. Make a new market with an empty
    /// book, and subscribe all connections to it.
    Numbers = 9,
    /// 10: a snapshot's index is above 1. The message is of none of the market's two tokens: a fault of the host, and nothing is lost.
    Index = 10,
    /// 18: the line's limit is zero or above [`Limits::held`](crate::Limits::held), see
    /// [`subscribe_with_limit`](crate::MarketMerge::subscribe_with_limit). A fault of the host: call again with a limit in range, before
    /// the connection's first message. If messages came meanwhile, subscribe it again; where it had a line before, which took them,
    /// [`reset`](crate::MarketMerge::reset) and subscribe all connections again.
    LineLimit = 18,
}

impl Refusal {
    /// The number of this refusal in documents 01 and 02.
    pub const fn number(self) -> u64 {
        self as u64
    }

    /// The refusal of a number that the calls answered on a store of ours.
    #[cold]
    pub(crate) fn of(number: u64) -> Self {
        use Refusal::*;
        [
            Limits, Lines, Events, Items, Prints, Copies, Numbers, Index, LineLimit,
        ]
        .into_iter()
        .find(|refusal| refusal.number() == number)
        .unwrap_or_else(|| unreachable!("refusal {number} of a sound store and its lists"))
    }
}

impl std::fmt::Display for Refusal {
    fn fmt(&self, f: &mut std::fmt::Formatter<'_>) -> std::fmt::Result {
        let meaning = match self {
            Refusal::Limits => "a limit is outside its range",
            Refusal::Lines => "a new connection, and all lines are taken",
            Refusal::Events => "the log and the held items are at the event limit",
            Refusal::Items => "the line's item area is full",
            Refusal::Prints => "a print's key row or count row is needed, and none is free",
            Refusal::Copies => "the connection delivered this print 2^32 - 1 times",
            Refusal::Numbers => "the end and the held items are at 2^64 - 1",
            Refusal::Index => "the snapshot's index is above 1",
            Refusal::LineLimit => "the line's limit is zero or above the held limit",
        };
        write!(f, "refused {}: {meaning}", self.number())
    }
}

impl std::error::Error for Refusal {}
