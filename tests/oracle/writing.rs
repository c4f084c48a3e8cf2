// A market's words by docs/LAYOUT.md. Words that mean nothing are random, in half of the stores small.
use crate::random::Random;
use crate::reading::{Held, Item, Line, Market};
use crate::words::{Limits, LAYOUT};

pub fn words(m: &Market, x: Limits, r: &mut Random) -> Vec<u64> {
    let small = r.percent(50);
    let mut w: Vec<u64> = (0..x.store()).map(|_| if small { r.below(3) } else { r.next() }).collect();
    w[..5].copy_from_slice(&x.all());
    w[5] = m.base;
    w[6] = m.log.len() as u64;
    (w[7], w[8]) = stamp(m.last_applied, r);
    w[9] = m.lines.len() as u64;
    w[12] = LAYOUT;
    w[15] = r.below(x.g.max(1));
    let (g, c, d) = (x.g as usize, x.c as usize, x.d as usize);
    for (i, (key, time)) in m.log.iter().enumerate() {
        let p = (w[15] as usize + i) % g;
        w[64 + 2 * p..][..2].copy_from_slice(&[key.0, key.1]);
        w[64 + 2 * g + p] = *time;
    }
    let at = 64 + 3 * g;
    let keys = m.keys.iter().map(|(key, (applied, touched))| [key.0, key.1, *applied, *touched]);
    (w[10], w[13]) = write_rows(&mut w[at..], keys, r);
    let counts = m.counts.iter().map(|((key, conn), delivered)| [key.0, key.1, *conn, *delivered]);
    (w[11], w[14]) = write_rows(&mut w[at + 4 * c..], counts, r);
    let areas = w[at + 4 * c + 4 * d..].chunks_mut(7 * x.h as usize + 64);
    for (area, (conn, c)) in areas.zip(&m.lines) {
        area[0] = *conn;
        area[10] = c.limit;
        write_line(area, &c.line, r);
        write_held(area, x, &c.held);
    }
    w
}

// Rows in order as two runs: none of them new, all, or some. Answers how many stand in each.
fn write_rows(table: &mut [u64], rows: impl Iterator<Item = [u64; 4]>, r: &mut Random) -> (u64, u64) {
    let share = r.of(&[0, 0, 10, 50, 100]);
    let (mut old, mut new) = (Vec::new(), Vec::new());
    for row in rows {
        let run = if new.len() < 512 && r.percent(share) { &mut new } else { &mut old };
        run.push(row);
    }
    for (place, row) in table.chunks_mut(4).zip(old.iter().chain(&new)) {
        place.copy_from_slice(row);
    }
    (old.len() as u64, new.len() as u64)
}

fn flag(yes: bool, r: &mut Random) -> u64 {
    match yes {
        false => 0,
        true => r.of(&[1, 1, 2, u64::MAX]),
    }
}

fn stamp(time: Option<u64>, r: &mut Random) -> (u64, u64) {
    (flag(time.is_some(), r), time.unwrap_or(r.next()))
}

fn write_line(a: &mut [u64], line: &Line, r: &mut Random) {
    match line {
        Line::Waiting { since, .. } => (a[1], a[3]) = (0, *since),
        Line::Pending { snapshot, since, .. } => {
            (a[1], a[3]) = (1, *since);
            (a[4], a[5]) = stamp(*snapshot, r);
        }
        Line::InLine { next, due } => (a[1], a[6], a[7], a[8]) = (2, *next, flag(due[0], r), flag(due[1], r)),
        Line::Failed => a[1] = 3,
    }
    if let Line::Waiting { items, .. } | Line::Pending { items, .. } = line {
        a[2] = items.len() as u64;
        for (place, item) in a[32..].chunks_mut(4).zip(items) {
            place.copy_from_slice(&match item {
                Item::Event(key, message) => [0, key.0, key.1, *message],
                Item::Snapshot(token, message) => [token + 1, r.next(), r.next(), *message],
            });
        }
    }
}

fn write_held(a: &mut [u64], x: Limits, held: &Held) {
    a[9] = held.len() as u64;
    for (place, (key, message)) in a[4 * x.h as usize + 64..].chunks_mut(3).zip(held) {
        place.copy_from_slice(&[key.0, key.1, *message]);
    }
}
