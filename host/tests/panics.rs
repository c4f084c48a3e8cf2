//! A message whose clone or drop panics: the call unwinds, and the market says at the next call that it is poisoned.
use pollendrift::{EventKey, Lost, MarketMerge, Step, QUIET};
use std::cell::Cell;
use std::panic::{catch_unwind, AssertUnwindSafe};
use std::time::Instant;

thread_local! {
    /// After so many clones, or drops, one panics.
    static CLONES: Cell<u32> = const { Cell::new(u32::MAX) };
    static DROPS: Cell<u32> = const { Cell::new(u32::MAX) };
}

fn one_less(left: &Cell<u32>) {
    if left.get() == 0 {
        left.set(u32::MAX);
        panic!("a message's own panic");
    }
    left.set(left.get().saturating_sub(1));
}

struct Message;

impl Clone for Message {
    fn clone(&self) -> Message {
        CLONES.with(one_less);
        Message
    }
}

impl Drop for Message {
    fn drop(&mut self) {
        if !std::thread::panicking() {
            DROPS.with(one_less);
        }
    }
}

type Merge = MarketMerge<Message>;

fn key(i: u64) -> EventKey {
    EventKey::new(i, i)
}

/// Connection 1 in line; 2 pending: it holds both snapshots, an event, and a print that it delivered twice.
fn market(now: Instant) -> Merge {
    let mut m = Merge::default();
    for conn in [1, 2] {
        m.subscribe(conn, now).expect("a line is free");
        for token in [0, 1] {
            m.snapshot(conn, token, &Message, now);
        }
    }
    m.book_event(2, key(1), &Message, now);
    m.other(2, key(2), &Message, now);
    m.other(2, key(2), &Message, now);
    m
}

fn unwinds<T>(call: impl FnOnce() -> T) -> String {
    let result = catch_unwind(AssertUnwindSafe(call));
    let panic = result.err().expect("the call unwinds");
    match panic.downcast::<String>() {
        Ok(text) => *text,
        Err(panic) => panic.downcast_ref::<&str>().expect("a text").to_string(),
    }
}

/// The market is poisoned: calls say so, queries answer.
fn poisoned(m: &mut Merge, now: Instant) {
    assert!(m.is_poisoned());
    let calls: [fn(&mut Merge, Instant); 6] = [
        |m, now| m.subscribe(3, now).expect("a line is free"),
        |m, now| drop(m.book_event(1, key(3), &Message, now)),
        |m, now| drop(m.drop_conn(1, now)),
        |m, now| drop(m.promote(now)),
        |m, now| m.reset(now),
        |m, now| drop(m.tick(now + QUIET, &|_| false)),
    ];
    for call in calls {
        let said = unwinds(|| call(m, now));
        assert!(said.starts_with("this market is poisoned"), "{said}");
    }
    m.any_in_line();
    assert!(format!("{m:?}").ends_with("poisoned: true }"));
}

#[test]
fn clone_of_an_applied_message() {
    let now = Instant::now();
    let mut m = market(now);
    CLONES.set(0);
    let said = unwinds(|| m.book_event(1, key(1), &Message, now));
    assert_eq!(said, "a message's own panic");
    poisoned(&mut m, now);
}

#[test]
fn clone_of_a_held_message() {
    let now = Instant::now();
    let mut m = market(now);
    CLONES.set(0);
    unwinds(|| m.book_event(2, key(3), &Message, now));
    poisoned(&mut m, now);
}

/// Connection 2 takes over; its print is listed twice, for which its message is cloned once.
#[test]
fn clone_while_a_connection_is_dropped() {
    let now = Instant::now();
    let mut m = market(now);
    CLONES.set(0);
    unwinds(|| m.drop_conn(1, now));
    let lines: Vec<u64> = m.reading().lines.iter().map(|line| line.conn).collect();
    assert_eq!(lines, [2], "the dropped connection has no line");
    assert!(m.in_line(2) && !m.in_line(1));
    poisoned(&mut m, now);
}

#[test]
fn drop_of_a_held_message() {
    let now = Instant::now();
    let mut m = market(now);
    DROPS.set(0);
    unwinds(|| m.drop_conn(2, now));
    let lines: Vec<u64> = m.reading().lines.iter().map(|line| line.conn).collect();
    assert_eq!(lines, [1], "the dropped connection has no line");
    poisoned(&mut m, now);
}

#[test]
fn same_view_panics_before_the_tick() {
    let now = Instant::now();
    let mut m = market(now);
    let later = now + QUIET;
    let said = unwinds(|| m.tick(later, &|_| panic!("the host's own panic")));
    assert_eq!(said, "the host's own panic");
    assert!(!m.is_poisoned());
    // nothing changed: the same tick finds the line as it was
    assert!(m.reading().lines.iter().any(|line| line.items > 0));
    assert!(matches!(m.drop_conn(2, later), Lost::Kept));
    assert!(matches!(
        m.book_event(1, key(1), &Message, later),
        Step::Apply(_)
    ));
}
