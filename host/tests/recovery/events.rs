//! Refusal 5: the log and the held items are at the event limit.
use crate::book::{Book, Message};
use crate::{Run, LIMITS};
use pollendrift::{Applied, ConnId, Limits, Lost, MarketMerge, Refusal, Step};
use std::time::{Duration, Instant};

const EIGHT: Limits = Limits {
    events: 8,
    ..LIMITS
};

/// The only connection: the book is gone until its next snapshot.
#[test]
fn events_of_one_connection() {
    let mut run = Run::new(EIGHT, 0, &[1]);
    run.print(1);
    run.events(8);
    run.check();
    run.events(1);
    assert_eq!(run.logged("connection 1: refused 5"), 1);
    assert_eq!(run.host.book.last, [None; 2]);
    // Ignored, so that nothing hides the hole
    run.events(3);
    assert_eq!((run.host.book.last, run.host.log.len()), ([None; 2], 1));
    run.seconds(1);
    run.check();
    run.events(8);
    run.print(2);
    run.check();
}

/// Log entries that a tick would have removed: the tick at the refusal makes room.
#[test]
fn events_before_a_late_tick() {
    let mut run = Run::new(EIGHT, 0, &[1, 2]);
    run.events(8);
    run.now += Duration::from_millis(10_001);
    run.events(8);
    run.check();
    assert!(run.host.log.is_empty() && run.host.in_line(1) && run.host.in_line(2));
}

/// The log is at 64 for both connections: events 65 to 70 are in the next snapshots.
#[test]
fn events_of_two_connections() {
    let mut run = Run::new(LIMITS, 0, &[1, 2]);
    run.events(64);
    run.check();
    run.events(6);
    assert_eq!(run.logged("connection 1: refused 5"), 1);
    assert_eq!(run.logged("connection 2: refused 5"), 1);
    run.seconds(2);
    run.check();
    run.events(10);
    run.print(1);
    run.check();
    assert!(run.host.in_line(1) && run.host.in_line(2));
}

/// The same where the second connection is behind: it goes on where the first was refused.
#[test]
fn events_of_the_leading_connection() {
    let mut run = Run::new(LIMITS, 0, &[1, 2]);
    run.events(63);
    for number in 63..70 {
        run.venue.event(number % 2);
        run.deliver_from(1);
    }
    assert!(!run.host.in_line(1) && run.host.in_line(2));
    run.now += Duration::from_millis(10_001);
    run.deliver();
    run.check();
    run.seconds(2);
    run.events(10);
    run.check();
    assert!(run.host.in_line(1) && run.host.in_line(2));
    assert_eq!(run.host.log.len(), 1);
}

/// A newcomer's snapshot finds the log full, the first one or the second. It comes in line when
/// the log has room, and the other connection stays in line meanwhile.
#[test]
fn events_at_a_snapshot() {
    for before in [8, 7] {
        let mut run = Run::new(EIGHT, 0, &[1]);
        run.events(before);
        run.venue.subscribe(2, 0, 0);
        for _ in 0..9 {
            run.seconds(1);
            assert!(run.host.in_line(1) && !run.host.in_line(2));
            run.check();
        }
        assert!(run.logged("connection 2: refused 5") > 0);
        run.seconds(4);
        assert!(run.host.in_line(1) && run.host.in_line(2));
        run.close(1);
        run.events(8);
        run.check();
    }
}

/// A new subscription that nobody asked for, while the log is full.
#[test]
fn events_before_a_subscription() {
    let mut run = Run::new(EIGHT, 0, &[1]);
    run.events(8);
    run.venue.subscribe(1, 0, 0);
    run.events(4);
    run.check();
    assert!(run.host.log.is_empty() && run.host.in_line(1));
}

/// A host that passes over refusals, with connection 1 in line.
struct Careless {
    merge: MarketMerge<Message>,
    book: Book,
}

impl Careless {
    fn new(limits: Limits, now: Instant) -> Careless {
        let merge = MarketMerge::new(limits).expect("limits in range");
        let book = Book::default();
        let mut host = Careless { merge, book };
        host.merge.subscribe(1, now).expect("a line is free");
        for token in [0, 1] {
            assert!(matches!(host.snapshot(1, token, now), Step::Apply(_)));
        }
        host
    }

    fn apply(&mut self, step: Step<Applied<Message>>) -> Step<Applied<Message>> {
        if let Step::Apply(out) = &step {
            out.iter().for_each(|applied| self.book.apply(&applied.msg));
        }
        step
    }

    fn snapshot(&mut self, conn: ConnId, token: usize, now: Instant) -> Step<Applied<Message>> {
        let msg = Message::Snapshot { token, number: 0 };
        let step = self.merge.snapshot(conn, token, &msg, now);
        self.apply(step)
    }

    fn event(&mut self, conn: ConnId, number: u64, now: Instant) -> Step<Applied<Message>> {
        let msg = Message::Event { token: 0, number };
        let step = self.merge.book_event(conn, msg.key(), &msg, now);
        self.apply(step)
    }
}

const REFUSED: Step<Applied<Message>> = Step::Refused(Refusal::Events);

/// After a tick the first connection's event 71 is applied, and the other one's 65 disagrees.
#[test]
fn refusals_passed_over() {
    let zero = Instant::now();
    let mut host = Careless::new(LIMITS, zero);
    host.merge.subscribe(2, zero).expect("a line is free");
    for token in [0, 1] {
        assert_eq!(host.snapshot(2, token, zero), Step::Held);
    }
    for number in 1..=64 {
        assert!(matches!(host.event(1, number, zero), Step::Apply(_)));
        host.event(2, number, zero);
    }
    assert!(host.merge.in_line(2));
    for number in 65..=70 {
        assert_eq!(host.event(1, number, zero), REFUSED);
    }
    assert_eq!(host.book.gaps, 0);
    let later = zero + Duration::from_millis(10_001);
    assert_eq!(host.merge.tick(later, &|_| false), []);
    assert!(matches!(host.event(1, 71, later), Step::Apply(_)));
    assert_eq!(host.book.gaps, 1);
    assert_eq!(host.event(2, 65, later), Step::Diverged);
}

/// Where the connection subscribes without `drop_conn` the log stays full, and nobody is in line:
/// its snapshots are refused as well. `promote` clears the log.
#[test]
fn subscription_alone() {
    let now = Instant::now();
    let mut host = Careless::new(EIGHT, now);
    for number in 1..=8 {
        assert!(matches!(host.event(1, number, now), Step::Apply(_)));
    }
    assert_eq!(host.event(1, 9, now), REFUSED);
    host.merge.subscribe(1, now).expect("it has a line");
    assert!(!host.merge.any_in_line());
    assert_eq!(host.snapshot(1, 0, now), REFUSED);
    assert_eq!(host.merge.promote(now), Lost::Gone);
    assert!(matches!(host.snapshot(1, 0, now), Step::Apply(_)));
}
