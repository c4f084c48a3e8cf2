use crate::Refusal;
use std::time::Duration;

/// A connection's number.
pub type ConnId = u64;

/// How long applied book events stay in the log at least: a tick removes older ones from its front.
pub const LOG_KEEP: Duration = Duration::from_secs(10);
/// A line that is not in line for this long, counted from its subscription or its complete snapshot, ends at a tick: the market is
/// rebuilt from its complete snapshot, or it fails.
pub const ALIGN_TIMEOUT: Duration = Duration::from_secs(10);
/// The held limit of today's use, and of [`Limits::default`](crate::Limits::default).
pub const MAX_HELD: usize = 5_000;
/// A market is quiet when no book event and no snapshot was applied for this long.
pub const QUIET: Duration = Duration::from_secs(1);
/// So many held events that match the log in a row line a connection up.
pub const ALIGN_RUN: usize = 4;

/// A message to apply to the market's book, as the original has it: a print that is to be applied n times stands n times in its list.
#[derive(Clone, Debug, PartialEq)]
pub struct Applied<M> {
    /// The connection whose message it is.
    pub conn: ConnId,
    /// The message.
    pub msg: M,
    /// Whether it is a subscription snapshot.
    pub snapshot: bool,
}

/// A message to apply to the market's book so many times: what a [`MarketMerge::repeated`](crate::MarketMerge::repeated) market
/// lists in place of [`Applied`].
#[derive(Clone, Debug, PartialEq)]
pub struct Repeated<M> {
    /// The connection whose message it is.
    pub conn: ConnId,
    /// The message.
    pub msg: M,
    /// Whether it is a subscription snapshot.
    pub snapshot: bool,
    /// How often to apply it: 1, but for a print that this connection delivered more often than was applied.
    pub repeat: u64,
}

/// What a market lists: an [`Applied`] for each copy, or a [`Repeated`] with the count of copies. No other type is one.
pub trait Entry<M>: Sized + sealed::Sealed {
    /// Lists a message that is to be applied `times` times, at least once.
    #[doc(hidden)]
    fn list(out: &mut Vec<Self>, conn: ConnId, msg: M, snapshot: bool, times: u64);
}

mod sealed {
    pub trait Sealed {}
    impl<M> Sealed for super::Applied<M> {}
    impl<M> Sealed for super::Repeated<M> {}
}

impl<M: Clone> Entry<M> for Applied<M> {
    #[inline]
    fn list(out: &mut Vec<Self>, conn: ConnId, msg: M, snapshot: bool, times: u64) {
        for _ in 1..times {
            let msg = msg.clone();
            out.push(Applied {
                conn,
                msg,
                snapshot,
            });
        }
        out.push(Applied {
            conn,
            msg,
            snapshot,
        });
    }
}

impl<M> Entry<M> for Repeated<M> {
    #[inline]
    fn list(out: &mut Vec<Self>, conn: ConnId, msg: M, snapshot: bool, times: u64) {
        out.push(Repeated {
            conn,
            msg,
            snapshot,
            repeat: times,
        });
    }
}

/// What to do with a message that a connection delivered. `A` is [`Applied`] or [`Repeated`].
#[derive(Clone, Debug, PartialEq)]
pub enum Step<A> {
    /// Apply these, in order: the message itself, or held ones that it released.
    Apply(Vec<A>),
    /// A copy of what was applied already.
    Duplicate,
    /// Held until the connection is in line; or a snapshot that just put it in line, with nothing to apply.
    Held,
    /// The connection is not subscribed or failed, or the snapshot is not due.
    Ignored,
    /// The book event disagrees with the log at the connection's place. Nothing changed. Two connections disagree, and nobody
    /// knows which is right: [`MarketMerge::reset`] and an empty book, and every connection has to subscribe again.
    ///
    /// [`MarketMerge::reset`]: crate::MarketMerge::reset
    Diverged,
    /// The connection just failed: it held as much as its line's limit, or was behind the log. It has to subscribe again.
    Failed,
    /// The limits refuse the message: nothing changed, and **the message was not taken**. The original has no limits.
    ///
    /// The venue does not send a message twice on one connection. A host that goes on with the connection's next book event leaves
    /// a gap in the book, and nothing will tell it so: the next event gets the number of the refused one. Each [`Refusal`] says
    /// what to do instead.
    Refused(Refusal),
}

/// What became of the market's book when a line went. `A` is [`Applied`] or [`Repeated`].
#[derive(Clone, Debug, PartialEq)]
pub enum Lost<A> {
    /// Another connection is in line, or the closed one was not.
    Kept,
    /// No connection is in line and none holds a snapshot: there is no book until one comes.
    Gone,
    /// A connection that held a snapshot took over: the book is rebuilt from these.
    Rebuild(Vec<A>),
}

/// What a tick did to a line. `A` is [`Applied`] or [`Repeated`].
#[derive(Clone, Debug, PartialEq)]
pub enum Expired<A> {
    /// It is in line now; apply these, which it or lines that followed it held.
    Aligned(ConnId, Vec<A>),
    /// It could not line up in time: the book is rebuilt from its snapshot, with these.
    Rebuild(ConnId, Vec<A>),
    /// It failed, and has to subscribe again.
    Failed(ConnId),
}
