use crate::kept::Kept;
use crate::store::{self, Record, Store, Told};
use crate::{
    codes, Applied, ConnId, Entry, EventKey, Expired, Limits, Lost, Reading, Refusal, Repeated,
    Step,
};
use std::marker::PhantomData;
use std::time::{Duration, Instant};

/// How far before its construction a market's time begins.
const BEFORE: Duration = Duration::from_secs(24 * 60 * 60);

/// One market's merge of its connections: each book event is applied once, from the connection that delivers it first, in the
/// venue's order; each print as often as the connection that delivered it most often.
///
/// It owns the words of its store and writes them by the proved calls alone. Of the host's messages it keeps a copy of those that
/// the store holds, and of no others. What is to be applied it lists as the original does, an [`Applied`] for each copy of a print;
/// [`MarketMerge::repeated`] makes it list a [`Repeated`] with the count of copies.
///
/// A time is counted in whole milliseconds from a day before the construction; an earlier one counts as that. The original compares
/// times more finely: a limit of ten seconds may be reached up to a millisecond earlier or later here.
///
/// # Panics
/// Where a message's `clone` or `drop` panics in a call, that call's list is lost, so that the host's book misses what was in it. The
/// market is then poisoned: every later call that changes it panics and says so, and a new market is needed. Queries still answer. A
/// panic in the `same_view` of a tick comes before the tick, and changes nothing.
///
/// ```
/// use pollendrift::{EventKey, MarketMerge, Step};
/// use std::time::Instant;
/// let mut merge = MarketMerge::default();
/// let (now, key) = (Instant::now(), EventKey::new(7, 7));
/// for conn in [1, 2] {
///     merge.subscribe(conn, now)?;
/// }
/// assert!(matches!(merge.snapshot(1, 0, &"bids and asks", now), Step::Apply(_)));
/// match merge.book_event(1, key, &"a change", now) {
///     Step::Apply(out) => assert_eq!((out[0].conn, out[0].msg), (1, "a change")),
///     other => panic!("{other:?}"),
/// }
/// // the second connection has no snapshot yet, so its copy is held
/// assert_eq!(merge.book_event(2, key, &"a change", now), Step::Held);
/// # Ok::<(), pollendrift::Refusal>(())
/// ```
pub struct MarketMerge<M, A = Applied<M>> {
    store: Store,
    kept: Kept<M>,
    /// View answers of a tick; the memory is used again.
    answers: Vec<u64>,
    zero: Instant,
    poisoned: bool,
    lists: PhantomData<fn() -> A>,
}

impl<M> MarketMerge<M> {
    /// An empty market of these limits, whose book events are numbered from 0.
    ///
    /// # Errors
    /// [`Refusal::Limits`] where a limit is outside its range.
    pub fn new(limits: Limits) -> Result<Self, Refusal> {
        Self::with_start(limits, 0)
    }

    /// An empty market of these limits, whose book events are numbered from `start`.
    ///
    /// # Errors
    /// [`Refusal::Limits`] where a limit is outside its range.
    pub fn with_start(limits: Limits, start: u64) -> Result<Self, Refusal> {
        let now = Instant::now();
        Ok(MarketMerge {
            store: Store::new(limits, start)?,
            kept: Kept::new(),
            answers: Vec::with_capacity(limits.lines as usize),
            zero: now.checked_sub(BEFORE).unwrap_or(now),
            poisoned: false,
            lists: PhantomData,
        })
    }

    /// The same market, which lists a print once, with how often to apply it.
    ///
    /// ```
    /// use pollendrift::{MarketMerge, Repeated};
    /// let merge: MarketMerge<String, Repeated<String>> = MarketMerge::default().repeated();
    /// ```
    pub fn repeated(self) -> MarketMerge<M, Repeated<M>> {
        MarketMerge {
            store: self.store,
            kept: self.kept,
            answers: self.answers,
            zero: self.zero,
            poisoned: self.poisoned,
            lists: PhantomData,
        }
    }
}

impl<M> Default for MarketMerge<M> {
    /// A market of [`Limits::default`].
    fn default() -> Self {
        Self::new(Limits::default()).expect("the default limits are in range")
    }
}

impl<M, A> std::fmt::Debug for MarketMerge<M, A> {
    fn fmt(&self, f: &mut std::fmt::Formatter<'_>) -> std::fmt::Result {
        let reading = self.reading();
        f.debug_struct("MarketMerge")
            .field("log", &(reading.base..reading.end))
            .field("lines", &reading.lines)
            .field("keys", &reading.keys)
            .field("pairs", &reading.pairs)
            .field("limits", &reading.limits)
            .field("poisoned", &self.poisoned)
            .finish()
    }
}

impl<M, A> MarketMerge<M, A> {
    #[inline]
    fn time(&self, now: Instant) -> u64 {
        let age = now.saturating_duration_since(self.zero);
        let whole = age.as_secs().saturating_mul(1_000);
        whole.saturating_add(age.subsec_millis() as u64)
    }

    #[inline]
    fn check(&self) {
        if self.poisoned {
            poisoned();
        }
    }

    /// A call that changes the market begins. If it unwinds, `end` is not reached, and the market stays poisoned.
    #[inline]
    fn begin(&mut self) {
        self.check();
        self.poisoned = true;
    }

    #[inline]
    fn end(&mut self) {
        self.poisoned = false;
    }

    /// Whether a call of this market panicked after it had changed the market (see 'Panics' of [`MarketMerge`]).
    pub fn is_poisoned(&self) -> bool {
        self.poisoned
    }

    /// Whether the connection is in line.
    pub fn in_line(&self, conn: ConnId) -> bool {
        self.store.in_line(conn)
    }

    /// Whether some connection is in line.
    pub fn any_in_line(&self) -> bool {
        self.store.any_in_line()
    }

    /// Whether some connection is in line, waits for its snapshot or holds one. Otherwise the book needs a new subscription.
    pub fn servable(&self) -> bool {
        self.store.servable()
    }

    /// How many messages are kept for the host: those that the store holds.
    pub fn held_messages(&self) -> usize {
        self.kept.len()
    }

    /// The log's numbers, how full the tables are, and each line's kind, limit and next number: for tests and support.
    pub fn reading(&self) -> Reading {
        self.store.reading()
    }

    /// The connection subscribed the market; its snapshots are due. What it held before is let go, and its counts of prints begin anew.
    /// Its line's limit is that of the market, [`Limits::held`].
    ///
    /// # Errors
    /// [`Refusal::Lines`] for a new connection where all lines are taken.
    pub fn subscribe(&mut self, conn: ConnId, now: Instant) -> Result<(), Refusal> {
        self.subscribe_with_limit(conn, self.store.held_limit(), now)
    }

    /// As [`subscribe`](Self::subscribe), for a host that cannot keep [`Limits::held`] messages of a connection, such as one on a phone.
    /// `limit`, 1 to `held`, is this line's alone, and lasts until the connection's next subscription.
    ///
    /// A connection that is not in line holds up to `limit` items (snapshots and book events) and up to `limit` different prints. A
    /// further book event, or a print of a further key, is answered [`Step::Failed`] and not held: subscribe the connection again. A line
    /// that a book event failed keeps its prints until then. Snapshots are held above the limit too. To line up by its events a connection
    /// holds two snapshots and [`ALIGN_RUN`](crate::ALIGN_RUN) events, so the limit should be 6 at least.
    ///
    /// ```
    /// use pollendrift::{EventKey, MarketMerge, Step};
    /// let (mut merge, now) = (MarketMerge::default(), std::time::Instant::now());
    /// merge.subscribe_with_limit(1, 6, now)?;
    /// for i in 0..6 {
    ///     assert_eq!(merge.book_event(1, EventKey::new(i, i), &"a change", now), Step::Held);
    /// }
    /// assert_eq!(merge.book_event(1, EventKey::new(6, 6), &"a change", now), Step::Failed);
    /// # Ok::<(), pollendrift::Refusal>(())
    /// ```
    ///
    /// # Errors
    /// [`Refusal::LineLimit`] where the limit is zero or above `held`; [`Refusal::Lines`] as for `subscribe`.
    pub fn subscribe_with_limit(
        &mut self,
        conn: ConnId,
        limit: u64,
        now: Instant,
    ) -> Result<(), Refusal> {
        self.begin();
        let told = self.store.subscribe(conn, limit, self.time(now));
        let done = if told.code == codes::REFUSED {
            Err(Refusal::of(told.count))
        } else {
            self.kept.insert(conn);
            self.kept.follow(&self.store);
            Ok(())
        };
        self.end();
        done
    }

    /// The applied history is in doubt: nobody is in line until a connection that subscribes after now brings a snapshot, and every
    /// line that has not failed holds its next events to line up with that.
    pub fn reset(&mut self, now: Instant) {
        self.begin();
        let told = self.store.reset(self.time(now));
        if told.code != codes::DONE {
            told.never();
        }
        self.kept.follow(&self.store);
        self.end();
    }
}

#[cold]
fn poisoned() -> ! {
    panic!(
        "this market is poisoned: an earlier call of it panicked, and the messages to apply that it would have listed are lost; \
         make a new market and subscribe its connections again"
    )
}

impl<M, A: Entry<M>> MarketMerge<M, A> {
    /// The connection closed. Where it was the last in line, one that holds a snapshot takes over (see [`MarketMerge::promote`]).
    pub fn drop_conn(&mut self, conn: ConnId, now: Instant) -> Lost<A> {
        self.begin();
        let told = self.store.drop_conn(conn, self.time(now));
        self.kept.remove(conn);
        let lost = self.lost(told);
        self.end();
        lost
    }

    /// Where no connection is in line: the connection with the latest complete snapshot takes over, else the latest subscribed one
    /// that holds part of one; of equals the lowest.
    pub fn promote(&mut self, now: Instant) -> Lost<A> {
        self.begin();
        let told = self.store.promote(self.time(now));
        let lost = self.lost(told);
        self.end();
        lost
    }

    fn lost(&mut self, told: Told) -> Lost<A> {
        let lost = match told.code {
            codes::KEPT => Lost::Kept,
            codes::GONE => Lost::Gone,
            codes::REBUILD => Lost::Rebuild(self.put_out(0, told.count as usize)),
            _ => told.never(),
        };
        self.kept.follow(&self.store);
        lost
    }

    /// Upkeep, to be called about once a second: forgets old log entries and prints, lines connections up and ends those that could
    /// not. `same_view(messages)` says whether a connection that got just these messages, in order, would show the applied book.
    ///
    /// Log entries older than ten seconds and prints that nobody delivered for thirty go at a tick and not before. A host that does
    /// not tick comes to its limits, and its messages are refused ([`Refusal::Events`], [`Refusal::Prints`]).
    ///
    /// All views are asked before the tick, so `same_view` may be asked of a line where the original would not: one whose held
    /// events do not match the log, or that an earlier line's turn lines up or keeps waiting. An answer that is not needed changes
    /// nothing.
    pub fn tick(&mut self, now: Instant, same_view: &dyn Fn(&[&M]) -> bool) -> Vec<Expired<A>> {
        self.check();
        let t = self.time(now);
        let kept = &self.kept;
        let view = |line| same_view(&kept.view(line));
        self.store.ask(t, view, &mut self.answers);
        self.begin();
        let (told, reported) = self.store.tick(&self.answers, t);
        if told.code != codes::DONE {
            told.never();
        }
        let mut expired = Vec::with_capacity(reported);
        let mut from = 0;
        for place in 0..reported {
            let report = self.store.report(place);
            let out = self.put_out(from, report.records);
            from += report.records;
            expired.push(match report.kind {
                store::ALIGNED => Expired::Aligned(report.conn, out),
                store::REBUILT => Expired::Rebuild(report.conn, out),
                _ => Expired::Failed(report.conn),
            });
        }
        self.kept.follow(&self.store);
        self.end();
        expired
    }

    /// Records of held messages alone.
    fn put_out(&mut self, from: usize, count: usize) -> Vec<A> {
        let kept = &mut self.kept;
        listed(self.store.records(from, count), |number| kept.take(number))
    }
}

#[inline]
fn listed<M, A: Entry<M>>(
    records: impl ExactSizeIterator<Item = Record>,
    mut message: impl FnMut(usize) -> M,
) -> Vec<A> {
    let mut out = Vec::with_capacity(records.len());
    for record in records {
        let msg = message(record.message);
        A::list(&mut out, record.conn, msg, record.snapshot, record.times);
    }
    out
}

impl<M: Clone, A: Entry<M>> MarketMerge<M, A> {
    /// The connection's subscription snapshot of token `index`, 0 or 1.
    pub fn snapshot(&mut self, conn: ConnId, index: usize, msg: &M, now: Instant) -> Step<A> {
        self.begin();
        let (number, t) = (self.kept.next() as u64, self.time(now));
        let told = self.store.snapshot(conn, index as u64, number, t);
        self.step(told, conn, msg)
    }

    /// The connection's next book event. A copy of the message is made only where it is held or applied.
    #[inline]
    pub fn book_event(&mut self, conn: ConnId, key: EventKey, msg: &M, now: Instant) -> Step<A> {
        self.begin();
        let (number, t) = (self.kept.next() as u64, self.time(now));
        let told = self.store.book_event(conn, key, number, t);
        self.step(told, conn, msg)
    }

    /// Any other message of the connection, such as a print: it is counted, and applied as often as the connection that delivered
    /// it most often.
    #[inline]
    pub fn other(&mut self, conn: ConnId, key: EventKey, msg: &M, now: Instant) -> Step<A> {
        self.begin();
        let (number, t) = (self.kept.next() as u64, self.time(now));
        let told = self.store.print(conn, key, number, t);
        self.step(told, conn, msg)
    }

    /// The end of a call that had a message of the next number.
    #[inline]
    fn step(&mut self, told: Told, conn: ConnId, msg: &M) -> Step<A> {
        let step = match told.code {
            codes::APPLY => Step::Apply(self.put_out_with(told.count as usize, msg)),
            codes::DUPLICATE => Step::Duplicate,
            codes::HELD => Step::Held,
            codes::FAILED => Step::Failed,
            codes::IGNORED => Step::Ignored,
            codes::DIVERGED => Step::Diverged,
            codes::REFUSED => Step::Refused(Refusal::of(told.count)),
            _ => told.never(),
        };
        match step {
            Step::Held => self.kept.hold(&self.store, conn, msg),
            Step::Ignored | Step::Diverged | Step::Refused(_) => {}
            _ => self.kept.follow(&self.store),
        }
        self.end();
        step
    }

    /// Records of the call's own message and of held ones.
    #[inline]
    fn put_out_with(&mut self, count: usize, msg: &M) -> Vec<A> {
        let kept = &mut self.kept;
        let own = kept.next();
        listed(self.store.records(0, count), |number| {
            if number == own {
                msg.clone()
            } else {
                kept.take(number)
            }
        })
    }
}
