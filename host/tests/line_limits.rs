//! A phone's line, with a short limit of its own, beside a workstation's in one market.
use pollendrift::{
    Applied, ConnId, EventKey, Kind, Limits, MarketMerge, Refusal, Step, ALIGN_RUN, MAX_HELD,
};
use std::cmp::Ordering;
use std::time::Instant;

/// The workstation's line has the market's limit, the phone's a limit of its own.
const WORKSTATION: ConnId = 1;
const PHONE: ConnId = 2;
const SHORT: u64 = 3;

const LIMITS: Limits = Limits {
    lines: 2,
    held: 10,
    events: 100,
    keys: 50,
    pairs: 100,
};

fn key(i: u64) -> EventKey {
    EventKey::new(i, i)
}

/// A market, and the time of all calls.
struct Market {
    merge: MarketMerge<u64>,
    now: Instant,
}

impl Market {
    /// Both lines wait.
    fn new() -> Market {
        let merge = MarketMerge::new(LIMITS).expect("limits in range");
        let now = Instant::now();
        let mut market = Market { merge, now };
        assert_eq!(market.merge.subscribe(WORKSTATION, now), Ok(()));
        market.phone(SHORT);
        market
    }

    /// The phone subscribes with this limit.
    fn phone(&mut self, limit: u64) {
        let done = self.merge.subscribe_with_limit(PHONE, limit, self.now);
        assert_eq!(done, Ok(()));
    }

    fn event(&mut self, conn: ConnId, i: u64) -> Step<Applied<u64>> {
        self.merge.book_event(conn, key(i), &i, self.now)
    }

    fn print(&mut self, conn: ConnId, i: u64) -> Step<Applied<u64>> {
        self.merge.other(conn, key(i), &i, self.now)
    }

    fn snapshot(&mut self, conn: ConnId, token: usize) -> Step<Applied<u64>> {
        self.merge.snapshot(conn, token, &0, self.now)
    }

    /// The workstation is in line, and so many of its events are in the log.
    fn lead(&mut self, events: u64) {
        for token in [0, 1] {
            assert!(matches!(self.snapshot(WORKSTATION, token), Step::Apply(_)));
        }
        for i in 0..events {
            assert!(matches!(self.event(WORKSTATION, i), Step::Apply(_)));
        }
    }

    /// Kind, items and prints of a line.
    fn line(&self, conn: ConnId) -> (Kind, usize, usize) {
        let lines = self.merge.reading().lines;
        let line = lines.iter().find(|line| line.conn == conn);
        let line = line.expect("the connection has a line");
        (line.kind, line.items, line.prints)
    }

    /// The limits of both lines.
    fn limits(&self) -> Vec<u64> {
        let lines = self.merge.reading().lines;
        lines.iter().map(|line| line.limit).collect()
    }
}

#[test]
fn subscribe_passes_the_held_limit() {
    assert_eq!(Market::new().limits(), [LIMITS.held, SHORT]);
    let mut merge = MarketMerge::<u64>::default();
    assert_eq!(merge.subscribe(1, Instant::now()), Ok(()));
    assert_eq!(merge.reading().lines[0].limit, MAX_HELD as u64);
}

/// Both lines hold the same events. The phone's fails at the fourth, the workstation's at the eleventh.
#[test]
fn fails_at_its_limit_of_items() {
    let mut m = Market::new();
    for i in 0..LIMITS.held {
        let phone = match i.cmp(&SHORT) {
            Ordering::Less => Step::Held,
            Ordering::Equal => Step::Failed,
            Ordering::Greater => Step::Ignored,
        };
        assert_eq!(m.event(PHONE, i), phone, "event {i}");
        assert_eq!(m.event(WORKSTATION, i), Step::Held, "event {i}");
    }
    assert_eq!(m.line(PHONE), (Kind::Failed, 0, 0));
    assert_eq!(m.merge.held_messages(), LIMITS.held as usize);
    assert_eq!(m.event(WORKSTATION, LIMITS.held), Step::Failed);
    assert_eq!(m.merge.held_messages(), 0);
}

/// The same with prints. A further copy of a print that is held is held too.
#[test]
fn fails_at_its_limit_of_prints() {
    let mut m = Market::new();
    for i in 0..SHORT {
        assert_eq!(m.print(PHONE, i), Step::Held);
    }
    assert_eq!(m.print(PHONE, 0), Step::Held);
    assert_eq!(m.line(PHONE), (Kind::Waiting, 0, SHORT as usize));
    assert_eq!(m.print(PHONE, SHORT), Step::Failed);
    assert_eq!(m.line(PHONE), (Kind::Failed, 0, 0));
    assert_eq!(m.merge.held_messages(), 0);
    for i in 0..LIMITS.held {
        assert_eq!(m.print(WORKSTATION, i), Step::Held);
    }
    assert_eq!(m.print(WORKSTATION, LIMITS.held), Step::Failed);
}

/// A print that was applied already is held by nobody, so that it fails no line. Beside the phone's line the workstation's goes on.
#[test]
fn applied_prints_are_not_held() {
    let mut m = Market::new();
    m.lead(0);
    assert!(matches!(m.print(WORKSTATION, 9), Step::Apply(_)));
    for i in 0..SHORT {
        assert_eq!(m.print(PHONE, i), Step::Held);
    }
    assert_eq!(m.print(PHONE, 9), Step::Duplicate);
    assert_eq!(m.print(PHONE, SHORT), Step::Failed);
    for i in 0..LIMITS.held {
        assert!(matches!(m.event(WORKSTATION, i), Step::Apply(_)));
        assert!(matches!(m.print(WORKSTATION, i), Step::Apply(_)));
    }
}

/// Items and prints are counted apart; a line that a book event failed keeps its prints until it subscribes again.
#[test]
fn items_and_prints_apart() {
    let mut m = Market::new();
    for i in 0..SHORT {
        assert_eq!(m.print(PHONE, i), Step::Held);
        assert_eq!(m.event(PHONE, i), Step::Held);
    }
    assert_eq!(m.event(PHONE, SHORT), Step::Failed);
    assert_eq!(m.line(PHONE), (Kind::Failed, 0, SHORT as usize));
    assert_eq!(m.merge.held_messages(), SHORT as usize);
    m.phone(SHORT);
    assert_eq!(m.line(PHONE), (Kind::Waiting, 0, 0));
    assert_eq!(m.merge.held_messages(), 0);
}

/// In line no limit counts: nothing is held.
#[test]
fn in_line_nothing_is_held() {
    let mut m = Market::new();
    m.phone(1);
    for token in [0, 1] {
        assert!(matches!(m.snapshot(PHONE, token), Step::Apply(_)));
    }
    for i in 0..2 * LIMITS.held {
        assert!(matches!(m.event(PHONE, i), Step::Apply(_)));
        assert!(matches!(m.print(PHONE, i), Step::Apply(_)));
    }
}

/// Snapshots are held above the limit, up to the area's places; a book event then fails the line.
#[test]
fn more_items_by_snapshots() {
    let mut m = Market::new();
    m.lead(0);
    for _ in 0..LIMITS.held + 8 {
        assert_eq!(m.snapshot(PHONE, 0), Step::Held);
    }
    assert_eq!(m.line(PHONE), (Kind::Waiting, 18, 0));
    assert_eq!(
        m.snapshot(PHONE, 0),
        Step::Refused(Refusal::Items),
        "the area is full"
    );
    assert_eq!(m.print(PHONE, 0), Step::Held);
    assert_eq!(m.event(PHONE, 0), Step::Failed);
    assert_eq!(m.line(PHONE), (Kind::Failed, 0, 1));
    assert!(m.merge.in_line(WORKSTATION));
}

/// The limit stays at a reset and where the line fails, and counts for what the line holds afterwards.
#[test]
fn stays_until_the_next_subscription() {
    let mut m = Market::new();
    m.lead(2);
    m.merge.reset(m.now);
    assert_eq!(m.limits(), [LIMITS.held, SHORT]);
    for i in 0..SHORT {
        assert_eq!(m.event(PHONE, i), Step::Held);
        assert_eq!(m.event(WORKSTATION, i), Step::Held);
    }
    assert_eq!(m.event(PHONE, SHORT), Step::Failed);
    assert_eq!(m.event(WORKSTATION, SHORT), Step::Held);
    assert_eq!(m.limits(), [LIMITS.held, SHORT]);
    m.phone(SHORT + 1);
    assert_eq!(m.limits(), [LIMITS.held, SHORT + 1]);
    for i in 0..=SHORT {
        assert_eq!(m.event(PHONE, i), Step::Held);
    }
    assert_eq!(m.event(PHONE, SHORT + 1), Step::Failed);
    assert_eq!(m.merge.subscribe(PHONE, m.now), Ok(()));
    assert_eq!(m.limits(), [LIMITS.held; 2]);
}

/// The book is rebuilt from the phone's line, and the workstation's is out of line with the limit that it had.
#[test]
fn stays_at_a_rebuild() {
    let mut m = Market::new();
    m.phone(6);
    m.lead(1);
    for token in [0, 1] {
        assert_eq!(m.snapshot(PHONE, token), Step::Held);
    }
    let later = m.now + pollendrift::ALIGN_TIMEOUT;
    assert_eq!(m.merge.tick(later, &|_| false).len(), 1);
    assert!(m.merge.in_line(PHONE) && !m.merge.in_line(WORKSTATION));
    assert_eq!(m.limits(), [LIMITS.held, 6]);
    for i in 0..LIMITS.held {
        assert_eq!(m.event(WORKSTATION, 90 + i), Step::Held);
    }
    assert_eq!(m.event(WORKSTATION, 100), Step::Failed);
}

/// Two snapshots and four events line a connection up; with a limit below six it fails before.
#[test]
fn six_items_line_up() {
    for limit in [5, 6] {
        let mut m = Market::new();
        m.lead(ALIGN_RUN as u64);
        m.phone(limit);
        for token in [0, 1] {
            assert_eq!(m.snapshot(PHONE, token), Step::Held);
        }
        for i in 0..3 {
            assert_eq!(m.event(PHONE, i), Step::Held);
        }
        let last = m.event(PHONE, 3);
        assert_eq!(last == Step::Failed, limit == 5, "{last:?}");
        assert_eq!(m.merge.in_line(PHONE), limit == 6);
    }
}

/// A limit that is none is refused before a line is looked for, and nothing changes.
#[test]
fn refused_before_lines() {
    let mut m = Market::new();
    assert_eq!(m.event(PHONE, 0), Step::Held);
    assert_eq!(m.print(PHONE, 1), Step::Held);
    let (reading, now) = (m.merge.reading(), m.now);
    for limit in [0, LIMITS.held + 1, u64::MAX] {
        for conn in [WORKSTATION, PHONE, 3] {
            let done = m.merge.subscribe_with_limit(conn, limit, now);
            assert_eq!(done, Err(Refusal::LineLimit), "{conn}, {limit}");
        }
    }
    for limit in [1, LIMITS.held] {
        let done = m.merge.subscribe_with_limit(3, limit, now);
        assert_eq!(done, Err(Refusal::Lines), "{limit}");
    }
    assert_eq!(m.merge.reading(), reading);
    assert_eq!(m.merge.held_messages(), 2);
    let text = Refusal::LineLimit.to_string();
    assert_eq!(
        text,
        "refused 18: the line's limit is zero or above the held limit"
    );
}
