// The loads: a depth of so many levels a side, and operations on it that leave it about as large.
use crate::random::Random;

pub enum Operation {
    Set(bool, u32, f64),
    Trim(Option<u32>, Option<u32>),
    Best,
    Sums(u32, u32),
}

pub struct Load {
    pub name: String,
    pub what: String,
    pub before: Vec<Operation>,
    pub operations: Vec<Operation>,
}

use Operation::{Best, Set, Sums, Trim};

const OPERATIONS: usize = 20_000;
const MIDDLE: u32 = 500_000;
// between two levels
const STEP: u32 = 100;

// The price of the i-th level of a side, the best numbered 0.
fn price(bid: bool, i: u32) -> u32 {
    if bid { MIDDLE - (i + 1) * STEP } else { MIDDLE + (i + 1) * STEP }
}

fn size(r: &mut Random) -> f64 {
    r.between(1, 1_000_000) as f64 / 100.0
}

fn full(r: &mut Random, levels: u32) -> Vec<Operation> {
    let mut all = Vec::new();
    for bid in [true, false] {
        for i in 0..levels {
            all.push(Set(bid, price(bid, i), size(r)));
        }
    }
    all
}

// Levels replaced, of the first so many.
fn replaced(r: &mut Random, among: u32) -> Vec<Operation> {
    (0..OPERATIONS)
        .map(|_| {
            let bid = r.percent(50);
            Set(bid, price(bid, r.below(among as u64) as u32), size(r))
        })
        .collect()
}

// A level removed and then set again, of the first so many.
fn removed(r: &mut Random, among: u32) -> Vec<Operation> {
    (0..OPERATIONS / 2)
        .flat_map(|_| {
            let bid = r.percent(50);
            let at = price(bid, r.below(among as u64) as u32);
            [Set(bid, at, 0.0), Set(bid, at, size(r))]
        })
        .collect()
}

// A venue's change: a level set anywhere, of which one in four removes it, and the trim that follows, which drops nothing.
fn changes(r: &mut Random, levels: u32) -> Vec<Operation> {
    (0..OPERATIONS / 2)
        .flat_map(|_| {
            let bid = r.percent(50);
            let at = price(bid, 1 + r.below(levels as u64 - 1) as u32);
            let new = if r.percent(25) { 0.0 } else { size(r) };
            [Set(bid, at, new), Trim(Some(price(true, 0)), Some(price(false, 0)))]
        })
        .collect()
}

// Trims that drop the best level of each side, with the sets that bring them back.
fn trims(r: &mut Random) -> Vec<Operation> {
    (0..OPERATIONS / 3)
        .flat_map(|_| {
            [
                Trim(Some(price(true, 1)), Some(price(false, 1))),
                Set(true, price(true, 0), size(r)),
                Set(false, price(false, 0), size(r)),
            ]
        })
        .collect()
}

pub fn all() -> Vec<Load> {
    let mut loads = Vec::new();
    for levels in [10, 50, 512] {
        let r = &mut Random::new(levels as u64);
        let near = 3;
        let kinds: [(&str, &str, Vec<Operation>); 8] = [
            ("set-near", "a level near the best replaced", replaced(r, near)),
            ("set-any", "any level replaced", replaced(r, levels)),
            ("remove-near", "a level near the best removed, and set again", removed(r, near)),
            ("remove-any", "any level removed, and set again", removed(r, levels)),
            ("trim-same", "a trim that drops nothing", (0..OPERATIONS).map(|_| Trim(Some(price(true, 0)), Some(price(false, 0)))).collect()),
            ("trim-best", "both best levels trimmed, and set again", trims(r)),
            ("best", "both best levels", (0..OPERATIONS).map(|_| Best).collect()),
            ("sums", "both sums over half the levels", (0..OPERATIONS).map(|_| Sums(price(true, levels / 2), price(false, levels / 2))).collect()),
        ];
        for (name, what, operations) in kinds {
            loads.push(Load {
                name: format!("{name}-{levels}"),
                what: format!("{what}, {levels} levels a side"),
                before: full(r, levels),
                operations,
            });
        }
        loads.push(Load {
            name: format!("change-{levels}"),
            what: format!("a change anywhere and its trim, {levels} levels a side"),
            before: full(r, levels),
            operations: changes(r, levels),
        });
    }
    loads
}
