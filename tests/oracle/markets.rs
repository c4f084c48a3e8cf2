// Random sound markets, also such as no calls make: a line in line below base or holding prints, more than H items, more prints than
// the line's limit, counts near 2^32, a snapshot time that is not since. Numbers lie at the edges of what is sound.
use crate::random::Random;
use crate::reading::{Conn, Held, Item, Line, Market};
use crate::words::{Key, Limits};
use std::collections::BTreeMap;

// The messages of a made market start here, so that they are not those of a list.
const FIRST: u64 = 1_000_000;

pub struct Made<'a> {
    pub conns: &'a [u64],
    pub keys: &'a [Key],
    pub stream: &'a [Key],
    pub now: u64,
    // the most that delivered may be above applied
    pub apart: u64,
}

struct Maker<'a> {
    r: &'a mut Random,
    of: &'a Made<'a>,
    x: Limits,
    // items that the log's limit leaves room for
    room: u64,
    made: u64,
}

// A line's limit: H, few, or any.
pub fn limit(r: &mut Random, x: Limits) -> u64 {
    let h = x.h.max(1);
    match r.below(10) {
        0..=3 => h,
        4..=6 => r.between(1, h.min(3)),
        _ => r.between(1, h),
    }
}

pub fn market(r: &mut Random, x: Limits, of: &Made) -> Market {
    let mut log_count = r.below(x.g.min(12) + 1);
    if r.percent(10) {
        log_count = x.g.min(300);
    }
    let mut maker = Maker { room: x.g - log_count, r, of, x, made: FIRST };
    let items = maker.room.min(maker.r.of(&[0, 4, 20, 100, 10_000]));
    let spare = maker.r.of(&[0, 1, 2, 30]);
    let top = u64::MAX - log_count - items;
    let base = match maker.r.below(4) {
        0 => top.saturating_sub(spare),
        1 => maker.r.next() >> 1,
        _ => maker.r.below(8),
    };
    maker.room = items;
    let log: Vec<(Key, u64)> = (0..log_count).map(|i| (of.stream[((base + i) % 300) as usize], maker.time())).collect();
    let mut m = Market { base, log, last_applied: None, keys: BTreeMap::new(), counts: BTreeMap::new(), lines: BTreeMap::new() };
    m.last_applied = maker.r.percent(80).then(|| maker.time());
    maker.prints(&mut m);
    maker.lines(&mut m);
    m
}

impl Maker<'_> {
    fn time(&mut self) -> u64 {
        let age = self.r.of(&[0, 0, 1, 500, 999, 1_000, 5_000, 9_999, 10_000, 10_001, 30_000, 30_001]);
        self.of.now.saturating_sub(age)
    }

    fn message(&mut self) -> u64 {
        self.made += 1;
        self.made
    }

    fn prints(&mut self, m: &mut Market) {
        for key in self.of.keys {
            if (m.keys.len() as u64) < self.x.c && self.r.percent(60) {
                let most = u32::MAX as u64;
                let applied = if self.r.percent(60) { self.r.below(4) } else { most - self.r.below(4) };
                m.keys.insert(*key, (applied, self.time()));
                for conn in self.of.conns {
                    if (m.counts.len() as u64) < self.x.d && self.r.percent(50) {
                        let from = applied.saturating_sub(2);
                        let to = applied.saturating_add(self.of.apart).min(most);
                        let delivered = if self.r.percent(40) { to } else { self.r.between(from, to) };
                        m.counts.insert((*key, *conn), delivered);
                    }
                }
            }
        }
    }

    fn lines(&mut self, m: &mut Market) {
        for conn in self.of.conns {
            if (m.lines.len() as u64) < self.x.l && self.r.percent(85) {
                let limit = limit(self.r, self.x);
                let line = self.line(m, limit);
                let held = self.held(limit);
                m.lines.insert(*conn, Conn { limit, line, held });
            }
        }
    }

    fn line(&mut self, m: &Market, limit: u64) -> Line {
        let since = self.time();
        match self.r.below(8) {
            0 | 1 => Line::Waiting { items: self.items(m, limit), since },
            2..=4 => {
                let items = self.items(m, limit);
                let snapshot = self.r.percent(70).then(|| self.time());
                Line::Pending { items, snapshot, since }
            }
            5 | 6 => {
                let below = self.r.of(&[0, 0, 0, 1, 2, 4, 40]);
                let due = [self.r.percent(15), self.r.percent(15)];
                Line::InLine { next: m.end().saturating_sub(below), due }
            }
            _ => Line::Failed,
        }
    }

    // Events of the stream from some number on, and snapshots between them.
    fn items(&mut self, m: &Market, limit: u64) -> Vec<Item> {
        let (h, most) = (self.x.h, self.x.h + 8);
        let some = self.r.below(h.min(8) + 1);
        let count = self.r.of(&[0, 1, some, some, limit - 1, limit, limit + 1, h, h + 1, most]).min(most).min(self.room);
        self.room -= count;
        let mut number = m.base.saturating_add(self.r.below(m.log.len() as u64 + 2)).saturating_sub(self.r.below(3));
        let mut items = Vec::new();
        for _ in 0..count {
            let message = self.message();
            items.push(if self.r.percent(20) {
                Item::Snapshot(self.r.below(2), message)
            } else {
                number = number.wrapping_add(1);
                Item::Event(self.of.stream[(number.wrapping_sub(1) % 300) as usize], message)
            });
        }
        items
    }

    // Of a part of the keys, so that there are others.
    fn held(&mut self, limit: u64) -> Held {
        let keys = &self.of.keys[..self.r.between(1, self.of.keys.len() as u64) as usize];
        let few = self.r.below(self.x.h.min(4) + 1);
        let count = self.r.of(&[0, 0, few, limit - 1, limit, limit + 1, limit + 1, self.x.h]).min(self.x.h);
        (0..count).map(|_| (self.r.of(keys), self.message())).collect()
    }
}
