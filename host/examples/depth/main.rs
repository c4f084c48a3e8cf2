//! A token's depth beside the merge: two connections deliver the same changes of a book, each is applied once, and both sides are printed.
//!
//!     cargo run --example depth
mod tokens;

use pollendrift::{Applied, ConnId, Limits, Lost, MarketMerge, Step};
use std::time::Instant;
use tokens::{Message, Tokens};

struct Market {
    merge: MarketMerge<Message>,
    tokens: Tokens,
}

impl Market {
    fn apply(&mut self, list: Vec<Applied<Message>>) {
        for applied in &list {
            self.tokens.apply(&applied.msg);
        }
    }

    fn deliver(&mut self, conn: ConnId, message: &Message, now: Instant) {
        let step = match message {
            Message::Book { token, .. } => self.merge.snapshot(conn, *token, message, now),
            Message::Change { .. } => self.merge.book_event(conn, message.key(), message, now),
        };
        match step {
            Step::Apply(list) => self.apply(list),
            Step::Duplicate | Step::Held | Step::Ignored => {}
            // examples/recovering shows what a host does then
            step => panic!("{step:?}"),
        }
    }

    fn show(&self, when: &str) {
        println!("{when}");
        let Some(depth) = self.tokens.depth(0) else {
            println!("    no depth");
            return;
        };
        let show =
            |side: &str, (price, size): (u32, f64)| println!("    {side} 0.{price:06} {size}");
        let asks: Vec<_> = depth.ask_levels().collect();
        asks.into_iter().rev().for_each(|level| show("ask", level));
        depth.bid_levels().for_each(|level| show("bid", level));
    }
}

fn book(token: usize) -> Message {
    Message::Book {
        token,
        bids: vec![(450_000, 100.0), (440_000, 250.5), (455_000, 30.0)],
        asks: vec![(470_000, 80.0), (465_000, 20.0), (500_000, 1_000.0)],
    }
}

fn change(bid: bool, price: u32, size: f64, best_bid: u32, best_ask: u32) -> Message {
    Message::Change {
        token: 0,
        bid,
        price,
        size,
        best_bid: Some(best_bid),
        best_ask: Some(best_ask),
    }
}

fn main() {
    let limits = Limits {
        lines: 4,
        held: 32,
        events: 64,
        keys: 32,
        pairs: 128,
    };
    let mut market = Market {
        merge: MarketMerge::new(limits).expect("the limits are in range"),
        tokens: Tokens::default(),
    };
    let now = Instant::now();
    let changes = [
        // a trade took the bids at 0.455, and the venue reports the best that is left
        change(true, 440_000, 200.0, 450_000, 465_000),
        change(false, 465_000, 0.0, 450_000, 470_000),
        change(false, 468_000, 12.5, 450_000, 468_000),
    ];
    for conn in [1, 2] {
        market.merge.subscribe(conn, now).expect("a free line");
        for token in [0, 1] {
            market.deliver(conn, &book(token), now);
        }
    }
    market.show("the book");
    for (i, message) in changes.iter().enumerate() {
        // the second connection is ahead for one change
        for conn in if i == 1 { [2, 1] } else { [1, 2] } {
            market.deliver(conn, message, now);
        }
        market.show(&format!("after change {}", i + 1));
    }
    if let Some(depth) = market.tokens.depth(0) {
        println!("bids from 0.45: {}", depth.bid_depth_from(450_000));
        println!("asks to 0.47: {}", depth.ask_depth_to(470_000));
    }
    if let Lost::Gone = market.merge.drop_conn(1, now) {
        market.tokens.clear();
    }
}
