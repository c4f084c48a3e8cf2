//! The host of examples/recovering over each refusal: the book comes right again, and no print
//! counts twice. Refusal 8 takes 2^32 deliveries and is not driven here; crates/calls_points meets it
//! in a store that was made by hand. Nor is 18, since this host gives its lines no limit of their own;
//! tests/line_limits.rs meets it.
#[path = "../../examples/recovering/book.rs"]
mod book;
mod events;
#[path = "../../examples/recovering/host.rs"]
mod host;
mod prints;
mod random;
#[path = "../../examples/recovering/venue.rs"]
mod venue;

use host::Host;
use pollendrift::{ConnId, Limits, Refusal};
use std::time::{Duration, Instant};
use venue::Venue;

const LIMITS: Limits = Limits {
    lines: 4,
    held: 16,
    events: 64,
    keys: 16,
    pairs: 32,
};

struct Run {
    host: Host,
    venue: Venue,
    now: Instant,
}

impl Run {
    /// A market with these connections in line.
    fn new(limits: Limits, start: u64, conns: &[ConnId]) -> Run {
        let mut run = Run {
            host: Host::new(limits, start).expect("limits in range"),
            venue: Venue::default(),
            now: Instant::now(),
        };
        for conn in conns {
            run.venue.subscribe(*conn, 0, 0);
        }
        run.seconds(2);
        assert!(conns.iter().all(|conn| run.host.in_line(*conn)));
        run
    }

    fn deliver(&mut self) {
        self.venue.deliver_all(&mut self.host, self.now);
    }

    fn deliver_from(&mut self, conn: ConnId) {
        let (host, now) = (&mut self.host, self.now);
        while self.venue.deliver(conn, host, now).is_some() {}
    }

    fn close(&mut self, conn: ConnId) {
        self.venue.close(conn);
        self.host.closed(conn, self.now);
    }

    /// Seconds with a tick each.
    fn seconds(&mut self, count: u64) {
        for _ in 0..count {
            self.deliver();
            self.now += Duration::from_secs(1);
            self.venue.tick(&mut self.host, self.now);
        }
    }

    /// So many events of both tokens in turn, each delivered by all connections at once.
    fn events(&mut self, count: usize) {
        for number in 0..count {
            self.venue.event(number % 2);
            self.deliver();
            self.now += Duration::from_millis(1);
        }
    }

    fn print(&mut self, id: u64) {
        self.venue.print(id);
        self.deliver();
    }

    /// How many lines of the log have this text.
    fn logged(&self, text: &str) -> usize {
        let lines = self.host.log.iter();
        lines.filter(|line| line.contains(text)).count()
    }

    fn check_book(&self) {
        assert_eq!(self.host.book.last, self.venue.book().map(Some));
        assert_eq!(self.host.book.gaps, 0);
    }

    fn check(&self) {
        self.check_book();
        assert_eq!(self.host.volume, self.venue.volume());
    }
}

#[test]
fn limits_outside_range() {
    let none = Limits {
        events: 0,
        ..LIMITS
    };
    assert_eq!(Host::new(none, 0).err(), Some(Refusal::Limits));
    Run::new(LIMITS, 0, &[1, 2]).check();
}

/// The third connection gets a line and a new subscription when the first is gone.
#[test]
fn lines_taken() {
    let mut run = Run::new(Limits { lines: 2, ..LIMITS }, 0, &[1, 2]);
    run.venue.subscribe(3, 0, 0);
    run.events(6);
    run.seconds(3);
    assert_eq!(run.logged("connection 3: refused 4"), 1);
    assert!(!run.host.in_line(3));
    run.close(1);
    run.seconds(1);
    run.print(1);
    run.events(6);
    assert!(run.host.in_line(3));
    run.close(2);
    run.events(6);
    run.check();
}

/// A newcomer gets the snapshot of one token again and again, so that its area is full.
#[test]
fn items_full() {
    let mut run = Run::new(LIMITS, 0, &[1]);
    run.venue.subscribe(2, 0, 0);
    run.venue.stray(2, 0, LIMITS.held as usize + 9);
    run.events(4);
    assert_eq!(run.logged("connection 2: refused 6"), 1);
    run.seconds(3);
    assert!(run.host.in_line(1) && run.host.in_line(2));
    run.close(1);
    run.print(1);
    run.events(4);
    run.check();
}

/// A new market when the numbers are used up.
#[test]
fn numbers_used_up() {
    let mut run = Run::new(LIMITS, u64::MAX - 8, &[1, 2]);
    run.print(1);
    run.events(8);
    run.check();
    run.events(3);
    assert_eq!(run.logged("refused 9"), 1);
    run.seconds(2);
    run.check();
    run.events(20);
    run.print(1);
    run.print(2);
    run.check();
    assert!(run.host.in_line(1) && run.host.in_line(2));
    assert_eq!(run.host.log.len(), 1);
}

/// A snapshot of another market's token changes nothing.
#[test]
fn index_above_one() {
    let mut run = Run::new(LIMITS, 0, &[1, 2]);
    run.venue.stray(1, 2, 1);
    run.events(4);
    assert_eq!(run.logged("connection 1: refused 10"), 1);
    run.check();
    assert!(run.host.in_line(1) && run.host.in_line(2));
}

/// A connection passes over an event. Where it leads, the book is wrong until they disagree.
#[test]
fn diverged() {
    for (conn, gaps) in [(1, 1), (2, 0)] {
        let mut run = Run::new(LIMITS, 0, &[1, 2]);
        run.venue.event(0);
        run.venue.lose(conn);
        run.venue.event(0);
        run.deliver();
        assert_eq!((run.host.book.last, run.host.book.gaps), ([None; 2], gaps));
        run.host.book.gaps = 0;
        run.seconds(2);
        run.events(4);
        run.check();
        assert!(run.host.in_line(1) && run.host.in_line(2));
    }
}

/// The last connection in line falls behind the log while a newcomer, which is ahead, waits: the
/// newcomer takes over at that tick.
#[test]
fn last_in_line_fails() {
    let mut run = Run::new(LIMITS, 0, &[1, 2]);
    for _ in 0..5 {
        run.venue.event(0);
        run.deliver_from(1);
    }
    run.close(1);
    run.now += Duration::from_secs(5);
    run.venue.subscribe(3, 0, 0);
    run.venue.event(1);
    run.deliver_from(3);
    assert_eq!(run.host.book.last, [Some(5), Some(0)]);
    run.now += Duration::from_millis(5_001);
    run.host.tick(run.now);
    assert!(run.host.in_line(3));
    run.check();
}

/// The connection that the book was rebuilt from closes, and the other one, which was in line
/// before, has no snapshot: it gets one at the next tick, and need not wait until its line fails.
#[test]
fn nobody_can_serve() {
    let mut run = Run::new(LIMITS, 0, &[1]);
    run.venue.event(0);
    run.venue.subscribe(2, 0, 0);
    run.deliver_from(2);
    for _ in 0..10 {
        run.now += Duration::from_secs(1);
        run.host.tick(run.now);
    }
    assert!(run.host.in_line(2) && !run.host.in_line(1));
    run.check();
    run.close(2);
    assert_eq!(run.host.book.last, [None; 2]);
    run.seconds(1);
    run.check();
    assert!(run.host.in_line(1));
}
