// Random call lists. A list is made beside a run of the original, so that calls go where they matter.
use crate::calling::{Maker, Manner};
use crate::random::Random;
use crate::reading::{Item, Market};
use crate::words::{Call, Key, Limits, MOST};
use crate::{original, refusals};
use std::collections::HashMap;

// What a list starts from: setup, or a market made by hand and its words. `view` and `salt` choose the one function of the view that
// both sides use.
#[derive(Clone, Debug)]
pub struct Setup {
    pub limits: Limits,
    pub start: u64,
    pub from: Option<(Market, Vec<u64>)>,
    pub more: usize,
    pub view: u64,
    pub salt: u64,
}

impl Setup {
    pub fn same_view(&self, messages: &[u64]) -> bool {
        match self.view {
            0 => false,
            1 => true,
            _ => messages.iter().fold(self.salt, |x, m| (x ^ m).wrapping_mul(0x9E37_79B9_7F4A_7C15).rotate_left(23)) % 2 == 0,
        }
    }

    // A tick's view answers.
    pub fn answers(&self, m: &Market) -> Vec<u64> {
        m.each_line().map(|line| self.same_view(&line.view()) as u64).collect()
    }
}

#[derive(Clone, Debug, PartialEq)]
pub struct Step {
    pub call: Call,
    pub t: u64,
    pub manner: Manner,
}

// Mostly small limits; the largest come by the list's number.
fn limits(r: &mut Random, list: u64) -> Limits {
    let tight = r.percent(15);
    let rows = r.percent(15);
    let many = r.percent(12);
    let turning = r.percent(25);
    let x = Limits {
        l: r.of(&[1, 2, 2, 2, 3, 3, 3, 4, 4, 4]),
        h: match r.below(10) {
            0..=3 => 32,
            4 | 5 => r.between(6, 9),
            _ => r.between(1, 6),
        },
        g: match (tight, turning) {
            (true, _) => r.between(1, 12),
            // the log's ring turns often
            (_, true) => r.between(12, 40),
            _ => r.between(60, 200),
        },
        c: if rows { r.between(1, 3) } else { r.between(6, 10) },
        d: if rows { r.between(1, 6) } else { r.between(20, 40) },
    };
    let x = if many { Limits { c: r.between(30, 150), d: r.between(60, 500), ..x } } else { x };
    match list % 1_000 {
        500 => Limits { l: MOST.l, h: MOST.h, g: 100_000, ..x },
        250 | 750 => Limits { h: MOST.h, g: r.between(5_000, 12_000), ..x },
        n if n % 50 == 10 => Limits { l: r.between(5, MOST.l), ..x },
        _ => x,
    }
}

// What the list of this number starts from, if it is not made by hand.
pub fn setup(r: &mut Random, list: u64) -> Setup {
    Setup {
        limits: limits(r, list),
        start: match r.below(10) {
            0 => u64::MAX - r.between(0, 40),
            1..=3 => r.next() >> 1,
            _ => 0,
        },
        from: None,
        more: r.below(3) as usize,
        view: r.below(4),
        salt: r.next(),
    }
}

// A list. Of a hundred lists `by_hand` start from a market made by hand; of a hundred calls `wrong` are lent wrong words or lists, or are
// a setup or a query.
pub fn list(r: &mut Random, s: &mut Setup, by_hand: u64, wrong: u64) -> Vec<Step> {
    let x = s.limits;
    let by_hand = r.percent(by_hand);
    let length = if x.c > 20 || x.g <= 40 { r.between(100, 600) } else { r.between(10, 200) };
    let mut maker = Maker::new(r, x);
    if by_hand {
        s.from = Some(maker.market(5));
    }
    let mut m = original::start(s);
    let mut steps = Vec::new();
    for _ in 0..length {
        let market = original::reading(&m);
        let (call, manner) = maker.step(&market, wrong);
        let t = maker.clock(call == Call::Tick);
        if manner == Manner::Right && refusals::by_call(&call) == 0 && refusals::by_state(&market, x, &call) == 0 {
            original::call(&mut m, &call, t, &|view| s.same_view(view));
        }
        steps.push(Step { call, t, manner });
    }
    steps
}

// The kind and key of the call that brings each message, also of those that a market made by hand holds.
pub fn keys_of(s: &Setup, steps: &[Step]) -> HashMap<u64, (u64, Key)> {
    let mut keys = HashMap::new();
    for c in s.from.iter().flat_map(|(m, _)| m.lines.values()) {
        keys.extend(c.held.iter().map(|(key, message)| (*message, (2, *key))));
        keys.extend(c.line.items().iter().map(|item| match item {
            Item::Snapshot(_, message) => (*message, (0, (0, 0))),
            Item::Event(key, message) => (*message, (1, *key)),
        }));
    }
    for step in steps {
        match step.call {
            Call::Snapshot { message, .. } => keys.insert(message, (0, (0, 0))),
            Call::Book { key, message, .. } => keys.insert(message, (1, key)),
            Call::Print { key, message, .. } => keys.insert(message, (2, key)),
            _ => None,
        };
    }
    keys
}
