//! What a market says of itself, and that it may be moved and shared between threads.
use pollendrift::{EventKey, Kind, LineReading, MarketMerge, Repeated};
use std::time::Instant;

fn key(i: u64) -> EventKey {
    EventKey::new(i, i)
}

/// Connection 1 in line with token 1 due, 2 waiting with a snapshot and a print, 3 waiting.
fn market() -> MarketMerge<String> {
    let now = Instant::now();
    let mut m = MarketMerge::with_start(Default::default(), 100).expect("limits in range");
    let message = String::from("a message");
    for conn in [3, 1, 2] {
        m.subscribe(conn, now).expect("a line is free");
    }
    m.snapshot(1, 0, &message, now);
    for i in 0..3 {
        m.book_event(1, key(i), &message, now);
    }
    m.snapshot(2, 0, &message, now);
    m.other(2, key(9), &message, now);
    m
}

#[test]
fn lines_and_log() {
    let m = market();
    let reading = m.reading();
    assert_eq!((reading.base, reading.end), (100, 103));
    assert_eq!((reading.keys, reading.pairs), (1, 1));
    assert_eq!(reading.limits, Default::default());
    let line = |conn, kind, items, prints| LineReading {
        conn,
        kind,
        limit: reading.limits.held,
        items,
        prints,
    };
    let in_line = Kind::InLine {
        next: 103,
        due: [false, true],
    };
    assert_eq!(
        reading.lines,
        [
            line(1, in_line, 0, 0),
            line(2, Kind::Waiting, 1, 1),
            line(3, Kind::Waiting, 0, 0)
        ]
    );
}

#[test]
fn other_kinds() {
    let mut m = market();
    let now = Instant::now();
    let kinds = |m: &MarketMerge<String>| -> Vec<Kind> {
        m.reading().lines.iter().map(|line| line.kind).collect()
    };
    m.reset(now);
    assert_eq!(kinds(&m), [Kind::Pending; 3]);
    m.tick(now + pollendrift::ALIGN_TIMEOUT, &|_| false);
    assert_eq!(kinds(&m), [Kind::Failed; 3]);
}

#[test]
fn debug_shows_log_and_lines() {
    let text = format!("{:?}", market());
    let starts = "MarketMerge { log: 100..103, lines: [LineReading { conn: 1, kind: InLine { next: 103, due: [false, true] }";
    assert!(text.starts_with(starts), "{text}");
    assert!(text.ends_with("poisoned: false }"), "{text}");
}

/// `Send` and `Sync` where the messages are.
#[test]
fn send_and_sync() {
    fn pinned<T: Send + Sync>() {}
    pinned::<MarketMerge<String>>();
    pinned::<MarketMerge<String, Repeated<String>>>();
}
