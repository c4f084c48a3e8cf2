//! A million messages through the drop-in: it keeps those that the store holds and no others, and memory stays level.
use pollendrift::{Applied, EventKey, Limits, MarketMerge, Step};
use std::alloc::{GlobalAlloc, Layout, System};
use std::sync::atomic::{AtomicUsize, Ordering::Relaxed};
use std::time::{Duration, Instant};

/// Counts the bytes that are allocated.
struct Counting;

static BYTES: AtomicUsize = AtomicUsize::new(0);

// SAFETY: every call is handed on to the system's allocator; only the sizes are counted.
unsafe impl GlobalAlloc for Counting {
    unsafe fn alloc(&self, layout: Layout) -> *mut u8 {
        BYTES.fetch_add(layout.size(), Relaxed);
        // SAFETY: the caller keeps the allocator's rules.
        unsafe { System.alloc(layout) }
    }

    unsafe fn alloc_zeroed(&self, layout: Layout) -> *mut u8 {
        BYTES.fetch_add(layout.size(), Relaxed);
        // SAFETY: the caller keeps the allocator's rules.
        unsafe { System.alloc_zeroed(layout) }
    }

    unsafe fn dealloc(&self, pointer: *mut u8, layout: Layout) {
        BYTES.fetch_sub(layout.size(), Relaxed);
        // SAFETY: the caller keeps the allocator's rules.
        unsafe { System.dealloc(pointer, layout) }
    }
}

#[global_allocator]
static COUNTING: Counting = Counting;

/// A message that is counted while it lives. It has bytes of its own, so that a kept one shows in memory.
struct Message(Vec<u8>);

static LIVE: AtomicUsize = AtomicUsize::new(0);

impl Message {
    fn new(number: u64) -> Message {
        LIVE.fetch_add(1, Relaxed);
        Message(number.to_le_bytes().repeat(16))
    }
}

impl Clone for Message {
    fn clone(&self) -> Message {
        LIVE.fetch_add(1, Relaxed);
        Message(self.0.clone())
    }
}

impl Drop for Message {
    fn drop(&mut self) {
        LIVE.fetch_sub(1, Relaxed);
    }
}

const CONNS: u64 = 4;
const ROUNDS: u64 = 260;
const HELD: u64 = 100;

/// A market, and what is known of a round of it.
struct Round {
    merge: MarketMerge<Message>,
    number: u64,
    now: Instant,
    made: u64,
}

impl Round {
    fn message(&mut self) -> Message {
        self.made += 1;
        Message::new(self.made)
    }

    fn key(&self, i: u64) -> EventKey {
        EventKey::new(self.number, i)
    }

    fn snapshots(&mut self, conn: u64) -> [Step<Applied<Message>>; 2] {
        [0, 1].map(|token| {
            let msg = self.message();
            self.merge.snapshot(conn, token, &msg, self.now)
        })
    }

    fn book(&mut self, conn: u64, i: u64) -> Step<Applied<Message>> {
        let msg = self.message();
        self.merge.book_event(conn, self.key(i), &msg, self.now)
    }

    fn print(&mut self, conn: u64, i: u64) -> Step<Applied<Message>> {
        let msg = self.message();
        self.merge.other(conn, self.key(i), &msg, self.now)
    }

    /// The store holds this many messages, and no others live.
    fn holds(&self, count: u64) {
        assert_eq!(self.merge.held_messages() as u64, count, "kept");
        assert_eq!(LIVE.load(Relaxed) as u64, count, "live");
    }

    /// All connections are new, and in line over the events 0 to 3.
    fn start(&mut self) {
        for conn in 0..CONNS {
            self.merge.drop_conn(conn, self.now);
        }
        assert!(self.merge.tick(self.now, &|_| false).is_empty());
        for conn in 0..CONNS {
            self.merge
                .subscribe(conn, self.now)
                .expect("a line is free");
            self.snapshots(conn);
            for i in 0..4 {
                self.holds(if conn == 0 { 0 } else { 2 + i });
                self.book(conn, i);
            }
            self.holds(0);
        }
    }

    /// The others go on; `late` subscribed again, and holds events and prints.
    fn hold(&mut self, late: u64) {
        self.merge.subscribe(late, self.now).expect("it has a line");
        for i in 0..HELD {
            for conn in (0..CONNS).filter(|&conn| conn != late) {
                self.book(conn, 4 + i);
            }
            assert!(matches!(self.book(late, 4 + i), Step::Held));
            assert!(matches!(self.print(late, i), Step::Held));
            // a second copy of a held print is counted, not kept
            assert!(matches!(self.print(late, i), Step::Held));
            self.holds(2 * (i + 1));
        }
    }

    /// What is held goes, in one of four ways.
    fn release(&mut self, late: u64) {
        match self.number % 4 {
            0 => {
                let [first, second] = self.snapshots(late);
                assert!(matches!(first, Step::Held));
                let Step::Apply(out) = second else {
                    panic!("it lines up, and its prints come out")
                };
                assert_eq!(out.len() as u64, 2 * HELD);
            }
            1 => self.merge.subscribe(late, self.now).expect("it has a line"),
            2 => drop(self.merge.drop_conn(late, self.now)),
            _ => {
                self.merge.reset(self.now);
                self.holds(HELD);
                drop(self.merge.drop_conn(late, self.now));
            }
        }
        self.holds(0);
    }

    /// The connections in line go on, each print and each event from every one of them.
    fn steady(&mut self) {
        let conns: Vec<u64> = (0..CONNS)
            .filter(|&conn| self.merge.in_line(conn))
            .collect();
        for i in 4 + HELD..1_400 {
            for &conn in &conns {
                self.book(conn, i);
            }
            self.holds(0);
        }
    }
}

#[test]
fn a_million_messages() {
    let limits = Limits {
        lines: CONNS,
        held: 500,
        events: 10_000,
        keys: 1_000,
        pairs: 4_000,
    };
    let mut round = Round {
        merge: MarketMerge::new(limits).expect("limits in range"),
        number: 0,
        now: Instant::now(),
        made: 0,
    };
    // The most bytes after one of the first 16 rounds, in which each connection left in each way.
    let mut level = 0;
    for number in 0..ROUNDS {
        round.number = number;
        round.now += Duration::from_secs(40);
        let late = number / 4 % CONNS;
        round.start();
        round.hold(late);
        round.release(late);
        round.steady();
        let bytes = BYTES.load(Relaxed);
        if number < 16 {
            level = level.max(bytes);
        }
        assert!(
            bytes <= level,
            "{bytes} bytes after round {number}, {level} before"
        );
    }
    assert!(round.made >= 1_000_000, "only {} messages", round.made);
}
