// The original's side: the same calls on the edited MarketMerge, its answers and its fields in the terms of words.rs.
use crate::lists::Setup;
use crate::merge::{self, Applied, Copies, EventKey, Expired, Lost, MarketMerge, Step};
use crate::reading::{Conn, Item, Line, Market};
use crate::shim::Instant;
use crate::words::{Call, Key};
use std::collections::{BTreeMap, HashMap};

// A record as the original has it: connection, message, whether it is a snapshot.
pub type Put = (u64, u64, bool);

#[derive(Clone, Debug, PartialEq)]
pub struct Answer {
    pub word: &'static str,
    pub put: Vec<Put>,
    pub reports: Vec<(u64, u64, Vec<Put>)>,
    pub messages: Vec<u64>,
}

fn puts(out: Vec<Applied>) -> Vec<Put> {
    out.into_iter().map(|a| (a.conn, a.msg, a.snapshot)).collect()
}

fn said(word: &'static str, put: Vec<Put>) -> Answer {
    Answer { word, put, reports: Vec::new(), messages: Vec::new() }
}

fn stepped(step: Step) -> Answer {
    match step {
        Step::Apply(out) => said("apply", puts(out)),
        Step::Duplicate => said("duplicate", Vec::new()),
        Step::Held => said("held", Vec::new()),
        Step::Ignored => said("ignored", Vec::new()),
        Step::Diverged => said("diverged", Vec::new()),
        Step::Failed => said("failed", Vec::new()),
    }
}

fn lost(lost: Lost) -> Answer {
    match lost {
        Lost::Kept => said("kept", Vec::new()),
        Lost::Gone => said("gone", Vec::new()),
        Lost::Rebuild(out) => said("rebuild", puts(out)),
    }
}

fn new(start: u64) -> MarketMerge {
    let mut m = MarketMerge::default();
    m.base = start;
    m
}

// What a list starts from.
pub fn start(s: &Setup) -> MarketMerge {
    let Some((from, _)) = &s.from else { return new(s.start) };
    let mut m = new(from.base);
    m.last_applied = from.last_applied.map(Instant);
    for (i, ((a, b), at)) in from.log.iter().enumerate() {
        m.log.push_back((EventKey(*a, *b), Instant(*at)));
        m.positions.entry(EventKey(*a, *b)).or_default().push_back(from.base + i as u64);
    }
    for ((a, b), (applied, touched)) in &from.keys {
        let copies = Copies { applied: *applied as u32, delivered: HashMap::new(), touched: Instant(*touched) };
        m.others.insert(EventKey(*a, *b), copies);
    }
    for (((a, b), conn), delivered) in &from.counts {
        m.others.get_mut(&EventKey(*a, *b)).expect("each count has its key").delivered.insert(*conn, *delivered as u32);
    }
    for (conn, c) in &from.lines {
        m.limits.insert(*conn, c.limit as usize);
        m.lines.insert(*conn, made_line(&c.line));
        m.held_prints.insert(*conn, c.held.iter().map(|((a, b), message)| (EventKey(*a, *b), *message)).collect());
    }
    m
}

fn made_line(line: &Line) -> merge::Line {
    let items = line.items().iter().map(|item| match item {
        Item::Snapshot(token, message) => merge::Item::Snapshot(*token as usize, *message),
        Item::Event((a, b), message) => merge::Item::Event(EventKey(*a, *b), *message),
    });
    let items = items.collect();
    match line {
        Line::Waiting { since, .. } => merge::Line::Waiting { items, since: Instant(*since) },
        Line::Pending { snapshot, since, .. } => {
            merge::Line::Pending { items, snapshot: snapshot.map(Instant), since: Instant(*since) }
        }
        Line::InLine { next, due } => merge::Line::InLine { next: *next, due: *due },
        Line::Failed => merge::Line::Failed,
    }
}

pub fn call(m: &mut MarketMerge, call: &Call, t: u64, same: &dyn Fn(&[u64]) -> bool) -> Answer {
    let now = Instant(t);
    match *call {
        Call::Setup { start, .. } => {
            *m = new(start);
            said("done", Vec::new())
        }
        Call::Subscribe { conn, limit } => {
            m.subscribe(conn, limit as usize, now);
            said("done", Vec::new())
        }
        Call::Snapshot { conn, token, message } => stepped(m.snapshot(conn, token as usize, &message, now)),
        Call::Book { conn, key, message } => stepped(m.book_event(conn, EventKey(key.0, key.1), &message, now)),
        Call::Print { conn, key, message } => stepped(m.other(conn, EventKey(key.0, key.1), &message, now)),
        Call::Drop { conn } => lost(m.drop_conn(conn, now)),
        Call::Promote => lost(m.promote(now)),
        Call::Reset => {
            m.reset(now);
            said("done", Vec::new())
        }
        Call::Tick => tick(m, now, same),
        Call::InLine { conn } => asked(m.in_line(conn)),
        Call::AnyInLine => asked(m.any_in_line()),
        Call::Servable => asked(m.servable()),
        Call::View { conn } => Answer { messages: m.view(conn).into_iter().copied().collect(), ..said("messages", Vec::new()) },
    }
}

fn tick(m: &mut MarketMerge, now: Instant, same: &dyn Fn(&[u64]) -> bool) -> Answer {
    let same = |view: &[&u64]| same(&view.iter().map(|&&message| message).collect::<Vec<_>>());
    let reports = m.tick(now, &same).into_iter().map(|e| match e {
        Expired::Aligned(conn, out) => (0, conn, puts(out)),
        Expired::Rebuild(conn, out) => (1, conn, puts(out)),
        Expired::Failed(conn) => (2, conn, Vec::new()),
    });
    Answer { reports: reports.collect(), ..said("done", Vec::new()) }
}

fn asked(yes: bool) -> Answer {
    said(if yes { "yes" } else { "no" }, Vec::new())
}

fn key(k: &EventKey) -> Key {
    (k.0, k.1)
}

fn items(held: &[merge::Item]) -> Vec<Item> {
    held.iter()
        .map(|item| match item {
            merge::Item::Snapshot(token, msg) => Item::Snapshot(*token as u64, *msg),
            merge::Item::Event(k, msg) => Item::Event(key(k), *msg),
        })
        .collect()
}

fn line(l: &merge::Line) -> Line {
    match l {
        merge::Line::Waiting { items: held, since } => Line::Waiting { items: items(held), since: since.0 },
        merge::Line::Pending { items: held, snapshot, since } => {
            Line::Pending { items: items(held), snapshot: snapshot.map(|at| at.0), since: since.0 }
        }
        merge::Line::InLine { next, due } => Line::InLine { next: *next, due: *due },
        merge::Line::Failed => Line::Failed,
    }
}

pub fn reading(m: &MarketMerge) -> Market {
    let limit = |conn: &u64| m.limits.get(conn).map_or(0, |limit| *limit as u64);
    let held = |conn: &u64| m.held_prints.get(conn).into_iter().flatten().map(|(k, msg)| (key(k), *msg)).collect();
    let mut counts = BTreeMap::new();
    for (k, copies) in &m.others {
        counts.extend(copies.delivered.iter().map(|(conn, n)| ((key(k), *conn), *n as u64)));
    }
    Market {
        base: m.base,
        log: m.log.iter().map(|(k, at)| (key(k), at.0)).collect(),
        last_applied: m.last_applied.map(|at| at.0),
        keys: m.others.iter().map(|(k, copies)| (key(k), (copies.applied as u64, copies.touched.0))).collect(),
        counts,
        lines: m.lines.iter().map(|(conn, l)| (*conn, Conn { limit: limit(conn), line: line(l), held: held(conn) })).collect(),
    }
}

// Held prints or the limit of a connection that has no line: the reading has no place for them.
pub fn stray(m: &MarketMerge) -> bool {
    let held = m.held_prints.iter().filter(|(_, held)| !held.is_empty()).map(|(conn, _)| conn);
    held.chain(m.limits.keys()).any(|conn| !m.lines.contains_key(conn))
}
