//! The drop-in beside the original on random call lists, through the public API alone. Needs the original: FEED_MERGE is the path of
//! feed_merge.rs, which tests/oracle/edit.rs makes to compile alone, with request 1's removal and request 5's limit of each line. LISTS and
//! SEED choose the lists.
#[cfg(original)]
mod desks;
#[cfg(original)]
mod lists;
#[cfg(original)]
#[allow(dead_code, clippy::all)]
mod merge {
    include!(concat!(env!("OUT_DIR"), "/merge.rs"));
}
#[cfg(original)]
#[rustfmt::skip]
#[path = "../../../tests/oracle/shim.rs"]
mod shim;
#[cfg(original)]
mod sides;

/// The host of desk.rs over the original.
#[cfg(original)]
#[allow(clippy::let_unit_value)]
mod original_desk {
    use crate::merge::{self, Applied, EventKey, Expired, Lost, Step};
    use crate::shim::Instant;
    use std::ops::{Deref, DerefMut};

    /// The edited original with the `subscribe` that it had: every line's limit is `MAX_HELD`.
    #[derive(Default)]
    pub struct MarketMerge(merge::MarketMerge);

    impl MarketMerge {
        fn subscribe(&mut self, conn: u64, now: Instant) {
            self.0.subscribe(conn, merge::MAX_HELD, now);
        }
    }

    impl Deref for MarketMerge {
        type Target = merge::MarketMerge;

        fn deref(&self) -> &Self::Target {
            &self.0
        }
    }

    impl DerefMut for MarketMerge {
        fn deref_mut(&mut self) -> &mut Self::Target {
            &mut self.0
        }
    }

    include!("desk.rs");
}

/// The same host over the drop-in.
mod drop_in_desk {
    mod feed_merge {
        pollendrift::drop_in!(u64);
    }
    pub use feed_merge::MarketMerge;
    use feed_merge::{Applied, EventKey, Expired, Lost, Step};
    use std::time::Instant;
    include!("desk.rs");
}

/// Connections 1 and 2; 2 waits, and delivers a print of five contracts twice before 1 does so once. Both copies count.
#[test]
fn each_copy_of_a_print_counts() {
    let mut desk = drop_in_desk::Desk::new(drop_in_desk::MarketMerge::default());
    let (now, key) = (std::time::Instant::now(), pollendrift::EventKey::new(9, 9));
    desk.subscribe(2, now);
    desk.print(2, key, 5, now);
    desk.print(2, key, 5, now);
    assert_eq!(desk.volume, 0);
    desk.snapshot(2, 0, 1, now);
    assert_eq!(desk.volume, 10);
    desk.subscribe(1, now);
    desk.print(1, key, 5, now);
    desk.book_event(2, key, 2, now);
    desk.drop_conn(1, now);
    desk.promote(now);
    desk.reset(now);
    desk.tick(now);
    assert_eq!((desk.volume, desk.book), (10, vec![1, 2]));
}

/// The desk's question: a print of five contracts while the connection waits, and one behind its new subscription. It counts once.
#[test]
fn counts_begin_with_the_subscription() {
    let mut desk = drop_in_desk::Desk::new(drop_in_desk::MarketMerge::default());
    let (now, key) = (std::time::Instant::now(), pollendrift::EventKey::new(9, 9));
    desk.subscribe(1, now);
    desk.print(1, key, 5, now);
    desk.subscribe(1, now);
    desk.snapshot(1, 0, 1, now);
    desk.print(1, key, 5, now);
    assert_eq!(desk.volume, 5);
}

#[cfg(original)]
#[test]
fn one_host_over_both() {
    let (lists, mut traded) = (500, 0);
    for i in 0..lists {
        match desks::run(&mut lists::Random::new(77 + i)) {
            Ok(volume) => traded += volume,
            Err(why) => panic!("list {i}: {why}"),
        }
    }
    say(&format!(
        "a host that counts volume: the same over both on {lists} lists, {traded} contracts"
    ));
}

/// Prints although a test's output is captured.
fn say(text: &str) {
    use std::io::Write;
    writeln!(std::io::stderr(), "{text}").expect("standard error takes text");
}

#[cfg(not(original))]
#[test]
fn random_lists() {
    say("skipped: the original is not at hand (FEED_MERGE)");
}

#[cfg(original)]
#[test]
fn random_lists() {
    let number = |name, or| std::env::var(name).map_or(or, |text| text.parse().expect(name));
    let (count, seed): (u64, u64) = (number("LISTS", 2_000), number("SEED", 1));
    let mut seen = sides::Seen::new();
    let mut made = 0;
    for i in 0..count {
        let mut random = lists::Random::new(seed.wrapping_mul(0x9E37_79B9).wrapping_add(i));
        match sides::run(&mut random, &mut seen) {
            Ok(calls) => made += calls,
            Err(why) => panic!("seed {seed}, list {i}: {why}"),
        }
    }
    let total = |word: &str| seen.get(word).copied().unwrap_or(0);
    for (what, times) in &seen {
        println!("{times:>8} {what}");
    }
    if count >= 2_000 {
        for word in sides::ANSWERS {
            assert!(total(word) > 0, "no list came to {word}");
        }
    }
    say(&format!(
        "the drop-in and the original: same on {count} lists, {made} calls"
    ));
}
