// A list on which the sides differ, made smaller while they still differ.
use crate::coverage::Seen;
use crate::lists::{Setup, Step};
use crate::random::Random;
use crate::reading::{Conn, Line, Market};
use crate::sides;
use crate::sound::sound;
use crate::writing;

fn differs(s: &Setup, steps: &[Step]) -> bool {
    sides::run(s, steps, &mut Seen::new()).is_err()
}

pub fn shrink(s: &Setup, steps: &[Step]) -> (Setup, Vec<Step>) {
    let fewer = fewer_calls(s, steps);
    let s = smaller_market(s, &fewer);
    let fewer = fewer_calls(&s, &fewer);
    (s, fewer)
}

// Drops calls, many at once and then one by one.
fn fewer_calls(s: &Setup, steps: &[Step]) -> Vec<Step> {
    let mut best = steps.to_vec();
    let mut part = best.len().div_ceil(2);
    while part > 0 {
        let mut at = 0;
        while at < best.len() {
            let mut fewer = best.clone();
            fewer.drain(at..(at + part).min(best.len()));
            if differs(s, &fewer) {
                best = fewer;
            } else {
                at += part;
            }
        }
        part = if part > 1 { part.div_ceil(2).min(part - 1) } else { 0 };
    }
    best
}

// Takes parts from a market made by hand.
fn smaller_market(s: &Setup, steps: &[Step]) -> Setup {
    let mut best = s.clone();
    while let Some((m, _)) = &best.from {
        let fit = |m: Market| {
            let words = writing::words(&m, best.limits, &mut Random::new(0));
            let s = Setup { from: Some((m, words.clone())), ..best.clone() };
            (sound(&words) && differs(&s, steps)).then_some(s)
        };
        match smaller(m).into_iter().find_map(fit) {
            Some(less) => best = less,
            None => break,
        }
    }
    best
}

fn without(m: &Market, change: impl FnOnce(&mut Market)) -> Market {
    let mut less = m.clone();
    change(&mut less);
    less
}

// The market with one part less, larger parts first.
fn smaller(m: &Market) -> Vec<Market> {
    let mut all: Vec<Market> = m.lines.keys().map(|conn| without(m, |m| drop(m.lines.remove(conn)))).collect();
    for key in m.keys.keys() {
        all.push(without(m, |m| {
            m.keys.remove(key);
            m.counts.retain(|(k, _), _| k != key);
        }));
    }
    all.extend(m.counts.keys().map(|pair| without(m, |m| m.counts.retain(|p, _| p != pair))));
    if !m.log.is_empty() {
        all.push(without(m, |m| {
            m.log.remove(0);
            m.base += 1;
        }));
        all.push(without(m, |m| m.log.truncate(m.log.len() - 1)));
    }
    all.extend(m.lines.keys().flat_map(|conn| smaller_line(m, *conn)));
    all
}

// The same of a line's held prints and items.
fn smaller_line(m: &Market, conn: u64) -> Vec<Market> {
    let Conn { line, held, .. } = &m.lines[&conn];
    let fewer_held = parts(held.len()).into_iter().map(|part| {
        without(m, |m| {
            if let Some(c) = m.lines.get_mut(&conn) {
                c.held.drain(part);
            }
        })
    });
    let fewer_items = parts(line.items().len()).into_iter().map(|part| {
        without(m, |m| {
            if let Some(Line::Waiting { items, .. } | Line::Pending { items, .. }) = m.lines.get_mut(&conn).map(|c| &mut c.line) {
                items.drain(part);
            }
        })
    });
    fewer_held.chain(fewer_items).collect()
}

// All of n, its halves and, of a few, each one.
fn parts(n: usize) -> Vec<std::ops::Range<usize>> {
    let mut parts = vec![0..n, 0..n / 2, n / 2..n];
    if n <= 40 {
        parts.extend((0..n).map(|i| i..i + 1));
    }
    parts.retain(|part| !part.is_empty());
    parts
}
