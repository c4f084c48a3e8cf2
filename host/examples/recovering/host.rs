//! A host that does what README.md advises, whatever the market answers. With it the book is right
//! or empty: a message that the market did not take is not passed over. A refusal costs about a
//! second without a book, or a print, so a market that meets 5 or 7 often needs larger limits.
use crate::book::{Book, Message};
use pollendrift::{Applied, ConnId, Expired, Limits, Lost, MarketMerge, Refusal, Step};
use std::collections::BTreeMap;
use std::time::{Duration, Instant};

/// What is known of a connection's subscription.
#[derive(Clone, Copy, Debug, PartialEq, Eq)]
enum Subscription {
    /// It has a line in the market.
    Line,
    /// It has none. The venue is asked to subscribe it again at a tick.
    Wanted,
    /// The venue was asked; the new subscription has not begun yet.
    Asked,
}

/// A print that found no free row.
struct Late {
    conn: ConnId,
    msg: Message,
    came: Instant,
}

/// For so long a print without a row is offered again. The market forgets a print after thirty
/// seconds, and a copy that is offered after that counts again.
const OFFERED: Duration = Duration::from_secs(10);

/// One market's host.
pub struct Host {
    limits: Limits,
    merge: MarketMerge<Message>,
    conns: BTreeMap<ConnId, Subscription>,
    late: Vec<Late>,
    pub book: Book,
    /// How often each print was applied.
    pub volume: BTreeMap<u64, u64>,
    pub log: Vec<String>,
}

impl Host {
    /// Events are numbered from `start`: 0, but for a test.
    ///
    /// # Errors
    /// [`Refusal::Limits`]: choose limits in range. There is no market before.
    pub fn new(limits: Limits, start: u64) -> Result<Host, Refusal> {
        Ok(Host {
            limits,
            merge: MarketMerge::with_start(limits, start)?,
            conns: BTreeMap::new(),
            late: Vec::new(),
            book: Book::default(),
            volume: BTreeMap::new(),
            log: Vec::new(),
        })
    }

    pub fn in_line(&self, conn: ConnId) -> bool {
        self.merge.in_line(conn)
    }

    /// A subscription begins: what the connection delivers from now on belongs to it.
    pub fn begins(&mut self, conn: ConnId, now: Instant) {
        // `subscribe` alone leaves the log as it is, even if nobody else is in line
        self.drop_line(conn, now);
        let line = match self.merge.subscribe(conn, now) {
            Ok(()) => Subscription::Line,
            // A failed or closed connection has no line here, so all lines are in use. Until one
            // is free its messages are Ignored, its snapshots too: it needs a new subscription.
            Err(refusal) => {
                self.log.push(format!("connection {conn}: {refusal}"));
                Subscription::Wanted
            }
        };
        self.conns.insert(conn, line);
    }

    /// The connection is gone.
    pub fn closed(&mut self, conn: ConnId, now: Instant) {
        self.drop_line(conn, now);
        self.conns.remove(&conn);
    }

    /// The connection delivered a message.
    pub fn message(&mut self, conn: ConnId, msg: &Message, now: Instant) {
        let mut step = self.offer(conn, msg, now);
        if let Step::Refused(Refusal::Events | Refusal::Prints) = step {
            // a tick may make room; the same call again, before the connection's next message
            self.upkeep(now);
            step = self.offer(conn, msg, now);
        }
        self.answered(conn, msg, step, now);
    }

    /// To be called each second. The connections that are to be subscribed at the venue now, and
    /// not at once when they were refused: while the log is full their snapshots are refused too,
    /// and the venue would be asked without end.
    pub fn tick(&mut self, now: Instant) -> Vec<ConnId> {
        self.upkeep(now);
        self.offer_late(now);
        if !self.merge.servable() {
            // no line has a snapshot or expects one
            self.start_over(now);
        }
        let mut asked = self.which(Subscription::Wanted);
        let taken = self.conns.len() - asked.len();
        asked.truncate((self.limits.lines as usize).saturating_sub(taken));
        for conn in &asked {
            self.conns.insert(*conn, Subscription::Asked);
        }
        asked
    }

    fn which(&self, state: Subscription) -> Vec<ConnId> {
        let conns = self.conns.iter().filter(|(_, is)| **is == state);
        conns.map(|(conn, _)| *conn).collect()
    }

    fn offer(&mut self, conn: ConnId, msg: &Message, now: Instant) -> Step<Applied<Message>> {
        match *msg {
            Message::Snapshot { token, .. } => self.merge.snapshot(conn, token, msg, now),
            Message::Event { .. } => self.merge.book_event(conn, msg.key(), msg, now),
            Message::Print { .. } => self.merge.other(conn, msg.key(), msg, now),
        }
    }

    fn answered(
        &mut self,
        conn: ConnId,
        msg: &Message,
        step: Step<Applied<Message>>,
        now: Instant,
    ) {
        match step {
            Step::Apply(out) => self.apply(out),
            Step::Duplicate | Step::Held | Step::Ignored => {}
            Step::Failed => self.again(conn, now),
            // two connections disagree, and nobody knows which is right
            Step::Diverged => self.start_over(now),
            Step::Refused(refusal) => {
                self.log.push(format!("connection {conn}: {refusal}"));
                self.refused(conn, msg, refusal, now);
            }
        }
    }

    /// Refused, and for 5 and 7 refused again after a tick.
    fn refused(&mut self, conn: ConnId, msg: &Message, refusal: Refusal, now: Instant) {
        match refusal {
            // The connection lacks this message, and the venue will not repeat it. Without a line
            // its next messages are Ignored, so that none of them hides the hole.
            Refusal::Events | Refusal::Items => self.again(conn, now),
            Refusal::Prints => {
                let (msg, came) = (*msg, now);
                self.late.push(Late { conn, msg, came });
            }
            Refusal::Numbers => self.new_market(),
            // faults of the host: its keys do not tell messages apart, or another market's token
            Refusal::Copies | Refusal::Index => {}
            // answers to other calls: `MarketMerge::with_start`, and those that subscribe
            Refusal::Limits | Refusal::Lines | Refusal::LineLimit => {}
        }
    }

    fn apply(&mut self, out: Vec<Applied<Message>>) {
        for applied in out {
            match applied.msg {
                Message::Print { id } => *self.volume.entry(id).or_insert(0) += 1,
                msg => self.book.apply(&msg),
            }
        }
    }

    /// The connection's line goes, and with it what it held.
    fn drop_line(&mut self, conn: ConnId, now: Instant) {
        let lost = match self.merge.drop_conn(conn, now) {
            // A line that had failed is Kept as well, though nobody may be in line any more.
            // `promote` then finds another source; where somebody is in line it does nothing.
            Lost::Kept => self.merge.promote(now),
            lost => lost,
        };
        match lost {
            Lost::Kept => {}
            Lost::Gone => self.book.clear(),
            Lost::Rebuild(out) => self.rebuild(out),
        }
    }

    fn rebuild(&mut self, out: Vec<Applied<Message>>) {
        self.book.clear();
        self.apply(out);
    }

    /// The connection needs a new subscription.
    fn again(&mut self, conn: ConnId, now: Instant) {
        self.drop_line(conn, now);
        self.conns.insert(conn, Subscription::Wanted);
    }

    /// All connections need a new subscription. A reset says nothing of the book: it is in doubt.
    fn start_over(&mut self, now: Instant) {
        self.merge.reset(now);
        self.book.clear();
        for conn in self.which(Subscription::Line) {
            self.again(conn, now);
        }
    }

    /// The event numbers are used up. The new market knows no prints, so late ones are given up.
    fn new_market(&mut self) {
        self.merge = MarketMerge::new(self.limits).expect("these limits were taken before");
        self.book.clear();
        for late in std::mem::take(&mut self.late) {
            self.give_up(&late);
        }
        for conn in self.which(Subscription::Line) {
            self.conns.insert(conn, Subscription::Wanted);
        }
    }

    /// The market's tick, and what it reports.
    fn upkeep(&mut self, now: Instant) {
        let book = &self.book;
        let reports = self.merge.tick(now, &|messages| {
            let mut view = Book::default();
            messages.iter().for_each(|msg| view.apply(msg));
            view.last == book.last
        });
        let mut failed = Vec::new();
        for report in reports {
            match report {
                Expired::Aligned(_, out) => self.apply(out),
                Expired::Rebuild(_, out) => self.rebuild(out),
                Expired::Failed(conn) => failed.push(conn),
            }
        }
        failed.into_iter().for_each(|conn| self.again(conn, now));
    }

    fn offer_late(&mut self, now: Instant) {
        for late in std::mem::take(&mut self.late) {
            if now.saturating_duration_since(late.came) > OFFERED {
                self.give_up(&late);
                continue;
            }
            match self.offer(late.conn, &late.msg, now) {
                // no row is free yet, or the connection has no line just now
                Step::Refused(Refusal::Prints) | Step::Ignored => self.late.push(late),
                step => self.answered(late.conn, &late.msg, step, now),
            }
        }
    }

    /// If no other connection's copy was counted, the volume is short by this print.
    fn give_up(&mut self, late: &Late) {
        let text = format!("connection {}: {:?} given up", late.conn, late.msg);
        self.log.push(text);
    }
}
