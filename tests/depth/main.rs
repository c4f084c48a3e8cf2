// main OPERATIONS SEED: random operations on the original `Depth` and on the proved calls, compared after every one. The tested calls and
// those of the owner's form run side by side on depths of their own.
#[allow(dead_code)]
mod exported;
#[allow(dead_code)]
mod numbers;
#[allow(dead_code)]
mod original;
#[allow(dead_code)]
#[path = "../oracle/random.rs"]
mod random;
#[allow(dead_code)]
mod rules;

use exported::{Answer, Depth, MOST};
use random::Random;
use std::collections::BTreeMap;

#[derive(Default)]
struct Seen(BTreeMap<&'static str, u64>);

impl Seen {
    fn add(&mut self, what: &'static str) {
        *self.0.entry(what).or_default() += 1;
    }
}

struct Sides {
    original: original::Depth,
    tested: Depth,
    owned: Depth,
    seen: Seen,
}

fn bits(levels: impl Iterator<Item = (u32, f64)>) -> Vec<(u32, u64)> {
    levels.map(|(price, size)| (price, size.to_bits())).collect()
}

impl Sides {
    fn new() -> Sides {
        Sides { original: Default::default(), tested: Depth::empty(), owned: Depth::empty(), seen: Seen::default() }
    }

    // Both sides' levels are those of the original.
    fn same(&mut self, what: &str) {
        let expected = [bits(self.original.bid_levels()), bits(self.original.ask_levels())];
        for (name, depth) in [("tested", &self.tested), ("owned", &self.owned)] {
            let found = [depth.bids.levels(), depth.asks.levels()];
            assert_eq!(found, expected, "{name}, after {what}");
        }
        if expected.iter().any(|levels| levels.len() == MOST) {
            self.seen.add("a side of 512");
        }
    }

    fn set(&mut self, bid: bool, price: u32, size: f64) {
        let side = self.tested.side(bid);
        let there = side.prices[..side.count].contains(&price);
        let refusal = rules::refusal(side, price, size);
        let before = [self.tested.places(), self.owned.places()];
        let what = format!("set {bid} {price} {:016x}", size.to_bits());
        let answers: [Answer<()>; 2] =
            [self.tested.set(bid, price, size), self.owned.side(bid).owned_set(bid, price, size)];
        let after = [self.tested.places(), self.owned.places()];
        for (name, answer) in ["tested", "owned"].into_iter().zip(answers) {
            assert_eq!(answer.err(), refusal, "{name}: {what}");
        }
        let other = usize::from(bid);
        for (before, after) in before.iter().zip(&after) {
            assert!(refusal.is_none() || before == after, "a refusal changes a place: {what}");
            assert_eq!(before[other], after[other], "the other side changes: {what}");
        }
        match refusal {
            Some(12) => self.seen.add("refused 12"),
            Some(13) => self.seen.add("refused 13"),
            Some(_) => self.seen.add("refused 14"),
            None => {
                self.original.set(bid, price, size);
                self.seen.add(match (there, size == 0.0) {
                    (true, true) => "a level removed",
                    (true, false) => "a level replaced",
                    (false, true) => "zero where no level is",
                    (false, false) => "a new level",
                });
                if size == 0.0 && size.is_sign_negative() {
                    self.seen.add("minus zero");
                }
            }
        }
        self.same(&what);
    }

    fn trim(&mut self, best_bid: Option<u32>, best_ask: Option<u32>) {
        let what = format!("trim {best_bid:?} {best_ask:?}");
        let before = self.tested.bids.count + self.tested.asks.count;
        self.original.trim(best_bid, best_ask);
        assert_eq!(self.tested.trim(best_bid, best_ask), Ok(()), "{what}");
        self.owned.bids.owned_trim(true, best_bid);
        self.owned.asks.owned_trim(false, best_ask);
        let after = self.tested.bids.count + self.tested.asks.count;
        self.seen.add(if before == after { "a trim that drops nothing" } else { "a trim that drops levels" });
        self.same(&what);
    }

    fn read(&mut self, bid: bool, limit: u32) {
        let best = if bid { self.original.best_bid() } else { self.original.best_ask() };
        let expected = best.map(|(price, size)| (price, size.to_bits()));
        assert_eq!(self.tested.best(bid), Ok(expected), "best {bid}");
        self.seen.add(if best.is_some() { "a best level" } else { "no best level" });
        // An empty sum is plus zero here, and minus zero in std.
        let (counted, sum) = if bid {
            (self.original.bids.range(limit..).count(), self.original.bid_depth_from(limit))
        } else {
            (self.original.asks.range(..=limit).count(), self.original.ask_depth_to(limit))
        };
        let expected = if counted == 0 { 0 } else { sum.to_bits() };
        assert_eq!(self.tested.sum(bid, limit), Ok(expected), "sum {bid} {limit}");
        assert_eq!(self.owned.side(bid).owned_sum(bid, limit), expected, "owned sum {bid} {limit}");
        self.seen.add(match counted {
            0 => "an empty sum",
            1 | 2 => "a sum of one or two",
            _ => "a sum of three or more",
        });
        assert_eq!(self.tested.check(), Ok(()));
    }
}

// One depth: prices in a narrow or a wide range, few or many removals, so that sides stay small or fill up.
fn depth(r: &mut Random, operations: u64, seen: Seen) -> Seen {
    let width = r.of(&[3, 40, 300, 2_000, 400_000]);
    let gone = r.of(&[5, 20, 50]);
    let trims = r.of(&[0, 2, 15]);
    let mut sides = Sides { seen, ..Sides::new() };
    for _ in 0..operations {
        let bid = r.percent(50);
        if r.percent(trims) {
            let bests = [sides.original.best_bid(), sides.original.best_ask()];
            let [b, a] = bests.map(|best| numbers::reported(r, width, best.map(|(price, _)| price)));
            sides.trim(b, a);
        } else if r.percent(20) {
            let limit = numbers::price(r, width);
            sides.read(bid, limit);
        } else {
            let price = numbers::price(r, width);
            let size = numbers::size(r, gone);
            sides.set(bid, price, size);
        }
    }
    sides.seen
}

const ALL: [&str; 16] = [
    "refused 12", "refused 13", "refused 14", "a level removed", "a level replaced", "zero where no level is", "a new level",
    "minus zero", "a trim that drops nothing", "a trim that drops levels", "a best level", "no best level", "an empty sum",
    "a sum of one or two", "a sum of three or more", "a side of 512",
];

fn main() {
    let args: Vec<u64> = std::env::args().skip(1).map(|a| a.parse().expect("a number")).collect();
    let (operations, seed) = (args[0], args[1]);
    let mut seen = Seen::default();
    let (mut made, mut part) = (0, 0);
    while made < operations {
        let mut r = Random::part(seed, part);
        let n = r.of(&[20, 200, 4_000]).min(operations - made);
        seen = depth(&mut r, n, seen);
        made += n;
        part += 1;
    }
    println!("same: {made} operations on {part} depths, seed {seed}");
    for (what, times) in &seen.0 {
        println!("  {what}: {times}");
    }
    let missing: Vec<_> = ALL.iter().filter(|what| !seen.0.contains_key(*what)).collect();
    if operations >= 100_000 && !missing.is_empty() {
        println!("not seen: {missing:?}");
        std::process::exit(1);
    }
}
