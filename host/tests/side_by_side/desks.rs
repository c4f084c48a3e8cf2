//! One host's code, over the original and over the drop-in: the same book and the same traded volume after every call.
use crate::lists::{self, Call, Maker, Random};
use crate::{drop_in_desk, merge, original_desk, shim};
use pollendrift::EventKey;
use std::time::{Duration, Instant};

/// The size of a print is that of its message's place in the list.
fn size(number: u64) -> u64 {
    1 + number % 7
}

/// A list on both desks: how many contracts were traded, or where the desks differ.
pub fn run(random: &mut Random) -> Result<u64, String> {
    let setup = lists::setup(random);
    let length = random.between(10, 250);
    let mut maker = Maker::new(random, &setup);
    let mut old = original_desk::Desk::new(original_desk::MarketMerge::default());
    let mut new = drop_in_desk::Desk::new(drop_in_desk::MarketMerge::default());
    let zero = Instant::now();
    for number in 0..length {
        let (call, t) = maker.call();
        let (then, now) = (shim::Instant(t), zero + Duration::from_millis(t));
        let old_key = |k: (u64, u64)| merge::EventKey(k.0, k.1);
        let new_key = |k: (u64, u64)| EventKey::new(k.0, k.1);
        match call {
            // a host of the original's knows no limit of a line
            Call::Subscribe(conn, _) => {
                old.subscribe(conn, then);
                new.subscribe(conn, now);
            }
            // the original may panic at a token above 1
            Call::Snapshot(_, token) if token > 1 => {}
            Call::Snapshot(conn, token) => {
                old.snapshot(conn, token, number, then);
                new.snapshot(conn, token, number, now);
            }
            Call::Book(conn, key) => {
                old.book_event(conn, old_key(key), number, then);
                new.book_event(conn, new_key(key), number, now);
            }
            Call::Other(conn, key) => {
                old.print(conn, old_key(key), size(number), then);
                new.print(conn, new_key(key), size(number), now);
            }
            Call::Drop(conn) => {
                old.drop_conn(conn, then);
                new.drop_conn(conn, now);
            }
            Call::Promote => {
                old.promote(then);
                new.promote(now);
            }
            Call::Reset => {
                old.reset(then);
                new.reset(now);
            }
            Call::Tick => {
                old.tick(then);
                new.tick(now);
            }
        }
        if (old.volume, &old.book) != (new.volume, &new.book) {
            return Err(format!(
                "after {call:?}, the call {number}: volume {} and {}",
                old.volume, new.volume
            ));
        }
    }
    Ok(new.volume)
}
