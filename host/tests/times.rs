//! Times: whole milliseconds, also for instants from before the construction.
use pollendrift::{Expired, MarketMerge, ALIGN_TIMEOUT};
use std::time::{Duration, Instant};

const MS: Duration = Duration::from_millis(1);

/// A connection that waits since `since` fails at the time-out and not a millisecond before.
fn times_out(since: Instant) {
    let mut merge = MarketMerge::<String>::default();
    merge.subscribe(1, since).expect("a line is free");
    assert_eq!(merge.tick(since + ALIGN_TIMEOUT - MS, &|_| false), []);
    let failed = merge.tick(since + ALIGN_TIMEOUT, &|_| false);
    assert_eq!(failed, [Expired::Failed(1)]);
}

#[test]
fn around_the_construction() {
    let now = Instant::now();
    for nanos in [0, 1, 999, 300_000, 999_999, 1_000_000, 5_000_000_000] {
        let away = Duration::from_nanos(nanos);
        times_out(now + away);
        times_out(now - away);
    }
}

#[test]
fn days_away() {
    let now = Instant::now();
    let day = Duration::from_secs(24 * 60 * 60);
    times_out(now + 10_000 * day);
    // before a market's time begins, all instants are one
    let mut merge = MarketMerge::<String>::default();
    merge.subscribe(1, now - 3 * day).expect("a line is free");
    assert_eq!(merge.tick(now - 2 * day, &|_| false), []);
    assert_eq!(merge.tick(now, &|_| false), [Expired::Failed(1)]);
}
