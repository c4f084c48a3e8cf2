//! Each refusal that a host can meet, with its number. Number 8 takes 2^32 deliveries and is not provoked.
use pollendrift::{Applied, EventKey, Limits, MarketMerge, Refusal, Step};
use std::time::Instant;

const SMALL: Limits = Limits {
    lines: 2,
    held: 3,
    events: 100,
    keys: 2,
    pairs: 3,
};

fn key(i: u64) -> EventKey {
    EventKey::new(i, i)
}

/// A market in which connection 1 is in line with both snapshots.
fn market(limits: Limits, start: u64, now: Instant) -> MarketMerge<String> {
    let mut m = MarketMerge::with_start(limits, start).expect("limits in range");
    m.subscribe(1, now).expect("a line is free");
    for token in [0, 1] {
        let step = m.snapshot(1, token, &format!("snapshot {token}"), now);
        assert!(matches!(step, Step::Apply(_)), "{step:?}");
    }
    m
}

/// Refused, and nothing was kept.
fn refused(m: &MarketMerge<String>, step: Step<Applied<String>>, refusal: Refusal, held: usize) {
    assert_eq!(step, Step::Refused(refusal));
    assert_eq!(m.held_messages(), held);
    assert!(m.in_line(1));
}

#[test]
fn numbers_and_meaning() {
    use Refusal::*;
    let all = [
        Limits, Lines, Events, Items, Prints, Copies, Numbers, Index, LineLimit,
    ];
    assert_eq!(all.map(Refusal::number), [2, 4, 5, 6, 7, 8, 9, 10, 18]);
    let error: Box<dyn std::error::Error> = Box::new(Refusal::Lines);
    assert_eq!(
        error.to_string(),
        "refused 4: a new connection, and all lines are taken"
    );
}

#[test]
fn limits_outside_range() {
    let most = Limits {
        lines: 16,
        held: 5_000,
        events: 1_048_576,
        keys: 65_536,
        pairs: 65_536,
    };
    assert!(MarketMerge::<String>::new(most).is_ok());
    let changes: [fn(&mut Limits, u64); 5] = [
        |x, n| x.lines = n,
        |x, n| x.held = n,
        |x, n| x.events = n,
        |x, n| x.keys = n,
        |x, n| x.pairs = n,
    ];
    let above = [17, 5_001, 1_048_577, 65_537, 65_537];
    for (change, above) in changes.into_iter().zip(above) {
        for n in [0, above, u64::MAX] {
            let mut limits = SMALL;
            change(&mut limits, n);
            assert_eq!(
                MarketMerge::<String>::new(limits).unwrap_err(),
                Refusal::Limits,
                "{limits:?}"
            );
        }
    }
}

#[test]
fn lines_taken() {
    let now = Instant::now();
    let mut m = market(SMALL, 0, now);
    assert_eq!(m.subscribe(2, now), Ok(()));
    assert_eq!(m.subscribe(3, now), Err(Refusal::Lines));
    assert_eq!(m.subscribe(2, now), Ok(()));
    m.drop_conn(2, now);
    assert_eq!(m.subscribe(3, now), Ok(()));
}

#[test]
fn line_limit_outside_range() {
    let now = Instant::now();
    let mut m = market(SMALL, 0, now);
    for limit in [0, SMALL.held + 1, u64::MAX] {
        let done = m.subscribe_with_limit(2, limit, now);
        assert_eq!(done, Err(Refusal::LineLimit), "{limit}");
    }
    assert_eq!(m.subscribe_with_limit(2, 1, now), Ok(()));
}

#[test]
fn events_at_their_limit() {
    let now = Instant::now();
    let limits = Limits { events: 3, ..SMALL };
    let mut m = market(limits, 0, now);
    m.subscribe(2, now).expect("a line is free");
    for i in 0..2 {
        assert!(matches!(
            m.book_event(1, key(i), &"applied".into(), now),
            Step::Apply(_)
        ));
    }
    assert_eq!(m.snapshot(2, 0, &"held".into(), now), Step::Held);
    let step = m.book_event(1, key(2), &"one more".into(), now);
    refused(&m, step, Refusal::Events, 1);
    let step = m.book_event(2, key(0), &"one more".into(), now);
    refused(&m, step, Refusal::Events, 1);
    let step = m.snapshot(2, 1, &"one more".into(), now);
    refused(&m, step, Refusal::Events, 1);
}

#[test]
fn item_area_full() {
    let now = Instant::now();
    let mut m = market(SMALL, 0, now);
    m.subscribe(2, now).expect("a line is free");
    for i in 0..SMALL.held as usize + 8 {
        assert_eq!(m.snapshot(2, 0, &format!("copy {i}"), now), Step::Held);
    }
    let step = m.snapshot(2, 0, &"one more".into(), now);
    refused(&m, step, Refusal::Items, 11);
}

#[test]
fn print_rows_taken() {
    let now = Instant::now();
    let mut m = market(SMALL, 0, now);
    m.subscribe(2, now).expect("a line is free");
    for i in 0..2 {
        assert!(matches!(
            m.other(1, key(i), &"applied".into(), now),
            Step::Apply(_)
        ));
    }
    let step = m.other(1, key(2), &"a third key".into(), now);
    refused(&m, step, Refusal::Prints, 0);
    assert_eq!(
        m.other(2, key(0), &"the third pair".into(), now),
        Step::Duplicate
    );
    let step = m.other(2, key(1), &"a fourth pair".into(), now);
    refused(&m, step, Refusal::Prints, 0);
}

#[test]
fn numbers_used_up() {
    let now = Instant::now();
    let mut m = market(SMALL, u64::MAX - 2, now);
    for i in 0..2 {
        assert!(matches!(
            m.book_event(1, key(i), &"applied".into(), now),
            Step::Apply(_)
        ));
    }
    let step = m.book_event(1, key(2), &"one more".into(), now);
    refused(&m, step, Refusal::Numbers, 0);
}

#[test]
fn index_above_one() {
    let now = Instant::now();
    let mut m = market(SMALL, 0, now);
    for index in [2, usize::MAX] {
        let step = m.snapshot(1, index, &"no token".into(), now);
        refused(&m, step, Refusal::Index, 0);
    }
}
