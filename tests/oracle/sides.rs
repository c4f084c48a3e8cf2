// The two sides of a list, compared after every call.
use crate::calling::Manner;
use crate::coverage::{Ring, Seen};
use crate::exported::{Lent, UNTOUCHED};
use crate::lists::{keys_of, Setup, Step};
use crate::original::{self, Put};
use crate::reading::{reading, Line, Market};
use crate::sound::sound;
use crate::words::{Answer, Call, Key, Limits, Record};
use crate::{merge, refusals};
use std::collections::HashMap;

// The records with each print repeated as often as its times say.
fn repeated(records: &[Record]) -> Vec<Put> {
    records.iter().flat_map(|r| std::iter::repeat_n((r.conn, r.message, r.kind == 0), r.times as usize)).collect()
}

// What a record has beyond the original's: kind, number, key. Book records are numbered on from the old end.
fn check_records(records: &[Record], keys: &HashMap<u64, (u64, Key)>, before: &Market, after: &Market) -> Result<(), String> {
    let mut number = before.end();
    for r in records {
        let (kind, key) = keys[&r.message];
        if r.kind != kind || r.key != key {
            return Err(format!("{r:?}: its call has kind {kind}, key {key:?}"));
        }
        if r.times == 0 || (r.kind != 2 && r.times != 1) {
            return Err(format!("{r:?}: times"));
        }
        if r.number != if r.kind == 1 { number } else { 0 } {
            return Err(format!("{r:?}: number, the next is {number}"));
        }
        number += (r.kind == 1) as u64;
    }
    same("end", &number, &after.end())
}

fn same<T: PartialEq + std::fmt::Debug>(what: &str, proved: &T, original: &T) -> Result<(), String> {
    if proved == original {
        return Ok(());
    }
    Err(format!("{what}\n  proved:   {proved:?}\n  original: {original:?}"))
}

fn compare(p: &Answer, o: &original::Answer) -> Result<(), String> {
    same("answer", &p.word, &o.word)?;
    same("view", &p.messages, &o.messages)?;
    if o.reports.is_empty() {
        same("reports", &p.reports.len(), &0)?;
        return same("records", &repeated(&p.records), &o.put);
    }
    let mut rest = &p.records[..];
    let mut reports = Vec::new();
    for &(kind, conn, count) in &p.reports {
        let (now, later) = rest.split_at_checked(count as usize).ok_or("reports have more records than were put out")?;
        reports.push((kind, conn, repeated(now)));
        rest = later;
    }
    same("records of no report", &rest.len(), &0)?;
    same("reports", &reports, &o.reports)
}

fn shorten(words: &mut Vec<u64>, needed: usize) {
    words.truncate(needed - 1);
    words.shrink_to_fit();
}

impl Manner {
    fn lend(self, lent: &mut Lent, x: Limits) {
        match self {
            Manner::Right => {}
            Manner::Short(n) => shorten(&mut lent.store, x.store() + 1 - n),
            Manner::Changed(at, word) => lent.store[at] = word,
            Manner::Out => shorten(&mut lent.out, x.records()),
            Manner::Reports => shorten(&mut lent.reports, x.reports()),
            Manner::List => shorten(&mut lent.list, x.items()),
            Manner::Fewer if !lent.answers.is_empty() => lent.answers.truncate(lent.answers.len() - 1),
            Manner::Fewer | Manner::More => lent.answers.push(0),
            Manner::Answer(a) => lent.answers.fill(a),
        }
    }
}

// How many rows of keys and of pairs stand in order, and how many new ones behind them.
fn rows(w: &[u64]) -> [(u64, u64); 2] {
    [(w[10], w[13]), (w[11], w[14])]
}

// Where the log stands.
fn ring(w: &[u64]) -> Ring {
    Ring { g: w[2], base: w[5], count: w[6], front: w[15] }
}

// Whether a line that was not in line is in line after the call.
fn entered(before: &Market, after: &Market) -> bool {
    let in_line = |m: &Market, conn| matches!(m.line(conn), Some(Line::InLine { .. }));
    after.lines.keys().any(|&conn| in_line(after, conn) && !in_line(before, conn))
}

// The market that the sides agree on is kept.
struct Sides<'a> {
    setup: &'a Setup,
    lent: Lent,
    original: merge::MarketMerge,
    market: Market,
}

impl Sides<'_> {
    fn new(s: &Setup) -> Sides<'_> {
        let original = original::start(s);
        let market = original::reading(&original);
        let lent = match &s.from {
            None => Lent::setup(s.limits, s.start, s.more),
            Some((_, words)) => {
                let more = std::iter::repeat_n(UNTOUCHED, s.more);
                Lent::new(words.iter().copied().chain(more).collect(), s.limits, s.more)
            }
        };
        Sides { setup: s, lent, original, market }
    }

    // The call on the proved side, refused where it has to be.
    fn proved(&mut self, step: &Step) -> Result<Answer, String> {
        let x = self.setup.limits;
        self.lent.answers = self.setup.answers(&self.market);
        let mut changed = (step.manner != Manner::Right).then(|| self.lent.clone());
        if let Some(lent) = &mut changed {
            step.manner.lend(lent, x);
        }
        let lent = changed.as_mut().unwrap_or(&mut self.lent);
        let market = (step.manner == Manner::Right || sound(&lent.store)).then_some(&self.market);
        let number = refusals::expected(market, x, &step.call, lent);
        let before = (number != 0).then(|| lent.clone());
        let answer = lent.call(&step.call, step.t)?;
        same("refusal", &answer.refused, &number)?;
        match (before, changed) {
            (Some(before), changed) => {
                same("lent words after a refusal", changed.as_ref().unwrap_or(&self.lent), &before)?;
            }
            (None, Some(lent)) => self.lent.store = lent.store,
            _ => {}
        }
        Ok(answer)
    }

    fn step(&mut self, step: &Step, keys: &HashMap<u64, (u64, Key)>, seen: &mut Seen) -> Result<(), String> {
        let before = (rows(&self.lent.store), ring(&self.lent.store));
        let p = self.proved(step)?;
        if p.refused != 0 {
            seen.note(&step.call, &p, &self.market, &self.market);
            seen.limits(&step.call, &p, &self.market, &self.market, self.setup.limits);
            return Ok(());
        }
        let same_view = |view: &[u64]| match step.manner {
            Manner::Answer(a) => a == 1,
            _ => self.setup.same_view(view),
        };
        let o = original::call(&mut self.original, &step.call, step.t, &same_view);
        let after = original::reading(&self.original);
        compare(&p, &o)?;
        self.check_store(&after)?;
        self.check_queries(&after, seen)?;
        if !matches!(step.call, Call::Setup { .. }) {
            check_records(&p.records, keys, &self.market, &after)?;
        }
        seen.note(&step.call, &p, &self.market, &after);
        seen.limits(&step.call, &p, &self.market, &after, self.setup.limits);
        seen.rows(&step.call, before.0, rows(&self.lent.store));
        seen.ring(before.1, ring(&self.lent.store), entered(&self.market, &after));
        self.market = after;
        Ok(())
    }

    fn check_store(&self, after: &Market) -> Result<(), String> {
        let words = &self.lent.store;
        if !sound(words) {
            return Err("the store is not sound".into());
        }
        if words[words.len() - self.setup.more..].iter().any(|&v| v != UNTOUCHED) {
            return Err("a word past the last line area was written".into());
        }
        same("limits", &Limits::of(words), &self.setup.limits)?;
        same("store", &reading(words)?, after)?;
        if original::stray(&self.original) {
            return Err("the original has prints or a limit for no line".into());
        }
        Ok(())
    }

    // The queries and the view, for each connection that has a line and for one that may have none.
    fn check_queries(&mut self, after: &Market, seen: &mut Seen) -> Result<(), String> {
        let conns: Vec<u64> = after.lines.keys().copied().chain([1]).collect();
        let of_conns = conns.iter().flat_map(|&conn| [Call::InLine { conn }, Call::View { conn }]);
        for query in [Call::AnyInLine, Call::Servable].into_iter().chain(of_conns) {
            let p = self.lent.call(&query, 0)?;
            compare(&p, &original::call(&mut self.original, &query, 0, &|_| false)).map_err(|e| format!("{query:?}: {e}"))?;
            seen.note(&query, &p, after, after);
        }
        Ok(())
    }
}

// Runs a list on both sides; where they differ, at which call and in what.
pub fn run(s: &Setup, steps: &[Step], seen: &mut Seen) -> Result<(), (usize, String)> {
    let keys = keys_of(s, steps);
    let mut sides = Sides::new(s);
    for (i, step) in steps.iter().enumerate() {
        sides.step(step, &keys, seen).map_err(|why| (i, why))?;
    }
    Ok(())
}
