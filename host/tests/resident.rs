//! A million messages over eight markets of the default limits that are made, dropped and made again: resident memory stays level.
use pollendrift::{EventKey, MarketMerge, Step};
use std::time::{Duration, Instant};

const MARKETS: u64 = 8;
const CONNS: u64 = 3;
const ROUNDS: u64 = 26;
const EVENTS: u64 = 1_200;
/// So many of them the last connection delivers, and holds.
const HELD: u64 = 100;

/// A message with bytes of its own.
type Message = Vec<u8>;

/// Resident bytes of this process.
fn resident() -> usize {
    let statm = std::fs::read_to_string("/proc/self/statm").expect("Linux");
    let pages = statm.split(' ').nth(1).expect("the second number");
    4_096 * pages.parse::<usize>().expect("a number")
}

fn message(number: u64) -> Message {
    number.to_le_bytes().repeat(12)
}

/// All connections deliver the same events and prints, the last of them from later on, and is in line only at the end. How many messages
/// that was.
fn feed(merge: &mut MarketMerge<Message>, market: u64, now: Instant) -> u64 {
    for conn in 0..CONNS {
        merge.subscribe(conn, now).expect("a line is free");
    }
    let late = CONNS - 1;
    for conn in 0..late {
        snapshots(merge, conn, now);
    }
    for i in 0..EVENTS {
        let now = now + Duration::from_millis(i);
        let (book, print) = (EventKey::new(market, i), EventKey::new(market, EVENTS + i));
        for conn in 0..if i < EVENTS - HELD { late } else { CONNS } {
            merge.book_event(conn, book, &message(i), now);
            merge.other(conn, print, &message(i), now);
        }
    }
    assert_eq!(merge.held_messages() as u64, HELD);
    let [first, second] = snapshots(merge, late, now);
    assert!(matches!((first, second), (Step::Held, Step::Held)));
    assert_eq!(merge.held_messages(), 0);
    2 * (CONNS + late * EVENTS + HELD)
}

fn snapshots(
    merge: &mut MarketMerge<Message>,
    conn: u64,
    now: Instant,
) -> [Step<pollendrift::Applied<Message>>; 2] {
    [0, 1].map(|token| merge.snapshot(conn, token, &message(token as u64), now))
}

#[test]
fn made_and_dropped() {
    let now = Instant::now();
    let before = resident();
    let (mut made, mut most, mut level) = (0, 0, 0);
    for round in 0..ROUNDS {
        let mut markets: Vec<MarketMerge<Message>> =
            (0..MARKETS).map(|_| MarketMerge::default()).collect();
        for (market, merge) in markets.iter_mut().enumerate() {
            made += feed(merge, market as u64, now);
        }
        let alive = resident();
        drop(markets);
        let left = resident();
        if round < 2 {
            (most, level) = (alive.max(most), left.max(level));
        }
        let slack = 1 << 20;
        assert!(alive <= most + slack, "{alive} resident, {most} before");
        assert!(left <= level + slack, "{left} left, {level} before");
    }
    assert!(made >= 1_000_000, "only {made} messages");
    println!("{made} messages in {ROUNDS} rounds of {MARKETS} markets: {before} bytes resident before, {most} at most, {level} after");
}
