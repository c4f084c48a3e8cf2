// Changes of a store's words and length: near what is sound, so that many stores stay sound and others miss it in one place.
use crate::random::Random;
use crate::words::{Limits, LAYOUT, MOST};

// A number near another, or at an edge.
pub fn edge(r: &mut Random, old: u64) -> u64 {
    match r.below(14) {
        0..=2 => old.wrapping_add(1),
        3..=5 => old.wrapping_sub(1),
        6 => 0,
        7 => 1,
        8 => u64::MAX,
        9 => u64::MAX - r.below(300),
        10 => u32::MAX as u64,
        11 => 1 << 32,
        12 => r.below(20),
        _ => r.next(),
    }
}

// Where the parts of a store lie by its limits.
pub struct Places {
    x: Limits,
    keys: usize,
    counts: usize,
    lines: usize,
    width: usize,
}

impl Places {
    pub fn new(x: Limits) -> Places {
        let keys = 64 + 3 * x.g as usize;
        let counts = keys + 4 * x.c as usize;
        Places { x, keys, counts, lines: counts + 4 * x.d as usize, width: 7 * x.h as usize + 64 }
    }

    fn header(&self, w: &[u64], r: &mut Random) -> (usize, u64) {
        let x = self.x;
        let items: u64 = (0..w[9].min(x.l) as usize)
            .map(|i| self.lines + i * self.width)
            .filter(|&at| w[at + 1] < 2)
            .fold(0, |sum, at| w[at + 2].wrapping_add(sum));
        let room = x.g.wrapping_sub(items);
        let top = u64::MAX.wrapping_sub(w[6]).wrapping_sub(items);
        match r.below(15) {
            0 => {
                (5, r.of(&[top, top.wrapping_add(1), top.wrapping_sub(1), w[5].wrapping_add(1), w[5].wrapping_sub(1), u64::MAX]))
            }
            1 | 2 => (6, r.of(&[room, room.wrapping_add(1), w[6].wrapping_add(1), w[6].wrapping_sub(1), x.g, x.g + 1, 0])),
            3 => (r.between(7, 8) as usize, edge(r, 0)),
            4 => (9, r.of(&[0, x.l, x.l + 1, w[9].wrapping_add(1), w[9].wrapping_sub(1), u64::MAX])),
            5 | 6 => (10, r.of(&[0, x.c, x.c + 1, w[10].wrapping_add(1), w[10].wrapping_sub(1)])),
            7 | 8 => (11, r.of(&[0, x.d, x.d + 1, w[11].wrapping_add(1), w[11].wrapping_sub(1)])),
            9 if r.percent(50) => (12, edge(r, LAYOUT)),
            9 => (r.between(16, 63) as usize, r.next()),
            12 => (15, r.of(&[0, x.g.wrapping_sub(1), x.g, x.g.wrapping_add(1), w[15].wrapping_add(1), w[15].wrapping_sub(1), u64::MAX])),
            10 | 11 => {
                let i = r.between(13, 14) as usize;
                (i, r.of(&[0, 1, 512, 513, w[i].wrapping_add(1), w[i].wrapping_sub(1), u64::MAX]))
            }
            _ => {
                let i = r.below(5) as usize;
                (i, r.of(&[0, 1, MOST.all()[i], MOST.all()[i] + 1, w[i].wrapping_add(1), w[i].wrapping_sub(1), u64::MAX]))
            }
        }
    }

    fn line(&self, w: &[u64], r: &mut Random) -> (usize, u64) {
        let h = self.x.h;
        let at = self.lines + r.below(w[9].clamp(1, self.x.l)) as usize * self.width;
        let end = w[5].wrapping_add(w[6]);
        match r.below(17) {
            0 | 1 => {
                let near = if r.percent(50) { at.saturating_sub(self.width) } else { at + self.width };
                let other = w.get(near).copied().unwrap_or(0);
                (at, r.of(&[other, other.wrapping_add(1), other.wrapping_sub(1), 0, u64::MAX]))
            }
            2 | 3 => (at + 1, r.of(&[0, 1, 2, 3, 4, 5, u64::MAX])),
            4 | 5 => (at + 2, r.of(&[0, h, h + 7, h + 8, h + 9, w[at + 2].wrapping_add(1), w[at + 2].wrapping_sub(1), u64::MAX])),
            6 | 7 => (at + 6, r.of(&[w[5], w[5].wrapping_sub(1), end, end.wrapping_add(1), end.wrapping_sub(1), u64::MAX, 0])),
            8 | 9 => (at + 9, r.of(&[0, h - 1, h, h + 1, w[at + 9].wrapping_add(1), u64::MAX])),
            10..=12 => {
                let limit = w[at + 10];
                (at + 10, r.of(&[0, 1, h - 1, h, h + 1, limit.wrapping_add(1), limit.wrapping_sub(1), 1 << 32, u64::MAX]))
            }
            13 | 14 => (at + 32 + 4 * r.below(w[at + 2].clamp(1, h + 8)) as usize, r.of(&[0, 1, 2, 3, 4, u64::MAX])),
            _ => {
                let place = at + r.below(self.width as u64) as usize;
                (place, edge(r, w[place]))
            }
        }
    }

    // Where one of the two tables starts, how many rows of it are in use, and its limit.
    fn table(&self, w: &[u64], r: &mut Random) -> (usize, u64, u64) {
        if r.percent(50) {
            (self.keys, w[10].saturating_add(w[13]), self.x.c)
        } else {
            (self.counts, w[11].saturating_add(w[14]), self.x.d)
        }
    }

    // A word of a print row: like the row's before it or behind it, or near to it.
    fn row(&self, w: &[u64], r: &mut Random) -> (usize, u64) {
        let (table, rows, limit) = self.table(w, r);
        let at = table + 4 * r.below(rows.clamp(1, limit)) as usize + r.below(4) as usize;
        let before = w[at - 4];
        let behind = w.get(at + 4).copied().unwrap_or(0);
        let near = edge(r, w[at]);
        (at, r.of(&[before, behind, near, near, u32::MAX as u64, 1 << 32]))
    }

    // A row written over another: it stands twice, perhaps in both runs.
    fn repeat(&self, w: &mut [u64], r: &mut Random) {
        let (table, rows, limit) = self.table(w, r);
        let from = table + 4 * r.below(rows.clamp(1, limit)) as usize;
        let to = table + 4 * r.below(rows.clamp(1, limit)) as usize;
        w.copy_within(from..from + 4, to);
    }

    // Two neighbouring rows exchanged: still each once, but not in order.
    fn exchange(&self, w: &mut [u64], r: &mut Random) {
        let (table, rows, limit) = self.table(w, r);
        if limit > 1 {
            let at = table + 4 * r.below(rows.clamp(2, limit) - 1) as usize;
            let (a, e) = w[at..at + 8].split_at_mut(4);
            a.swap_with_slice(e);
        }
    }

    // One change of a store that has all words of its limits.
    pub fn change(&self, w: &mut [u64], r: &mut Random) {
        let (at, word) = match r.below(10) {
            0..=3 => self.header(w, r),
            4..=6 => self.line(w, r),
            7 => self.row(w, r),
            8 if r.percent(50) => return self.repeat(w, r),
            8 => return self.exchange(w, r),
            _ => {
                let at = r.below(w.len() as u64) as usize;
                (at, edge(r, w[at]))
            }
        };
        w[at] = word;
    }
}

// Another length: cut, or longer by random words.
pub fn length(w: &mut Vec<u64>, needed: usize, r: &mut Random) {
    let some = r.below(needed as u64 + 8) as usize;
    let n = r.of(&[0, 1, 12, 63, 64, 65, needed - 1, needed - 1, needed, needed + 1, needed + 7, some]);
    while w.len() < n {
        w.push(r.next());
    }
    w.truncate(n);
    w.shrink_to_fit();
}

// Words without a store behind them: any, or small ones, with limits in range in front of half of them.
pub fn random(x: Limits, r: &mut Random) -> Vec<u64> {
    let n = r.below(x.store() as u64 + 20) as usize;
    let small = r.percent(50);
    let mut w: Vec<u64> = (0..n).map(|_| if small { r.below(4) } else { r.next() }).collect();
    if n >= 5 && r.percent(50) {
        w[..5].copy_from_slice(&x.all());
    }
    if n > 12 && r.percent(75) {
        w[12] = LAYOUT;
    }
    w
}
