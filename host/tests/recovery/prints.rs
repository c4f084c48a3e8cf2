//! Refusal 7: no free row for a print.
use crate::book::Message;
use crate::{Run, LIMITS};
use pollendrift::{Applied, EventKey, Limits, MarketMerge, Refusal, Step};
use std::time::{Duration, Instant};

/// The third print waits for a row of the first two, which go after thirty seconds. The fifth
/// would wait longer than ten, and is given up.
#[test]
fn prints_without_a_key() {
    let mut run = Run::new(Limits { keys: 2, ..LIMITS }, 0, &[1, 2]);
    run.print(1);
    run.print(2);
    run.seconds(25);
    run.print(3);
    run.events(4);
    assert_eq!(run.logged("refused 7"), 2);
    assert!(!run.host.volume.contains_key(&3));
    run.seconds(6);
    run.check();
    run.print(4);
    run.print(5);
    run.seconds(10);
    assert_eq!(run.logged("given up"), 0);
    run.seconds(50);
    assert_eq!(run.logged("Print { id: 5 } given up"), 2);
    run.check_book();
    let mut volume = run.venue.volume();
    assert_eq!(volume.remove(&5), Some(1));
    assert_eq!(run.host.volume, volume);
}

/// The second connection's copy of a print that was counted waits for a row. It does not count
/// again: neither when it gets a row in time, nor when the market has forgotten the print.
#[test]
fn prints_without_a_pair() {
    let mut run = Run::new(Limits { pairs: 3, ..LIMITS }, 0, &[1, 2]);
    run.print(1);
    run.seconds(25);
    run.print(2);
    assert_eq!(run.logged("connection 2: refused 7"), 1);
    run.check();
    run.seconds(6);
    run.print(3);
    assert_eq!(run.logged("connection 2: refused 7"), 2);
    run.seconds(10);
    assert_eq!(run.logged("given up"), 0);
    run.seconds(50);
    assert_eq!(run.logged("connection 2: Print { id: 3 } given up"), 1);
    run.events(4);
    run.print(3);
    run.check();
}

/// Counts begin with the subscription: of two equal prints around one, the second counts only where
/// another connection delivered both. Behind it each counts.
#[test]
fn equal_prints_around_a_subscription() {
    for (conns, volume) in [(&[1][..], 1), (&[1, 2][..], 2)] {
        let mut run = Run::new(LIMITS, 0, conns);
        run.print(1);
        run.close(1);
        run.venue.subscribe(1, 0, 0);
        run.seconds(2);
        run.events(4);
        run.print(1);
        assert_eq!(run.host.volume[&1], volume);
        run.print(1);
        assert_eq!(run.host.volume[&1], volume + 1);
        run.check_book();
    }
}

/// Its connection has no line when the print is offered again: it waits for that too.
#[test]
fn print_of_a_dropped_connection() {
    let mut limits = LIMITS;
    (limits.events, limits.keys) = (8, 2);
    let mut run = Run::new(limits, 0, &[1]);
    run.print(1);
    run.print(2);
    run.seconds(25);
    run.print(3);
    run.events(9);
    assert_eq!(run.logged("refused 7") + run.logged("refused 5"), 2);
    assert!(!run.host.in_line(1));
    run.seconds(6);
    run.check();
}

/// What the copy comes to where a host offers it after the market has forgotten the print.
#[test]
fn print_offered_too_late() {
    let (zero, print) = (Instant::now(), Message::Print { id: 1 });
    let mut merge = MarketMerge::new(Limits { pairs: 1, ..LIMITS }).expect("limits in range");
    for conn in [1, 2] {
        merge.subscribe(conn, zero).expect("a line is free");
        for token in [0, 1] {
            merge.snapshot(conn, token, &Message::Snapshot { token, number: 0 }, zero);
        }
    }
    let key = EventKey::new(1, 1);
    let counted = |step: Step<Applied<Message>>| matches!(step, Step::Apply(out) if out.len() == 1);
    assert!(counted(merge.other(1, key, &print, zero)));
    let refused = Step::Refused(Refusal::Prints);
    assert_eq!(merge.other(2, key, &print, zero), refused);
    let later = zero + Duration::from_millis(30_001);
    merge.tick(later, &|_| true);
    assert!(merge.in_line(2));
    assert!(counted(merge.other(2, key, &print, later)));
}
