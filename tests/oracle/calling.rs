// One random call after another, chosen by the market before it.
use crate::markets::{self, Made};
use crate::random::Random;
use crate::reading::{Conn, Item, Line, Market};
use crate::words::{Call, Key, Limits, MOST};
use crate::writing;
use std::collections::BTreeMap;

// How a call's words and lists are lent. All but Right can make a call be refused; the list goes on with the right ones.
#[derive(Clone, Copy, Debug, PartialEq)]
pub enum Manner {
    Right,
    // so many words fewer than the store needs
    Short(usize),
    // a word changed, so that the store is not sound
    Changed(usize, u64),
    // an output list, a list of reports, a view's list one word too short
    Out,
    Reports,
    List,
    // one view answer too few (or too many, where no line is), one too many, this one for every line
    Fewer,
    More,
    Answer(u64),
}

pub struct Maker<'a> {
    pub r: &'a mut Random,
    x: Limits,
    pub conns: Vec<u64>,
    pub keys: Vec<Key>,
    // what the venue sends past the log's end, by event number
    stream: Vec<Key>,
    // the number of the next event of each connection that is not in line
    at: BTreeMap<u64, u64>,
    // the only token, in a list of one
    token: Option<u64>,
    now: u64,
    // how many of the calls are book events, and how many prints
    busy: u64,
    prints: u64,
    made: u64,
}

const STEPS: [u64; 12] = [500, 500, 999, 999, 1_000, 1_000, 1_001, 9_999, 10_000, 10_001, 30_000, 30_001];

fn stream(r: &mut Random, keys: &[Key]) -> Vec<Key> {
    let period = if r.percent(25) { r.between(1, 5) } else { 300 };
    let part: Vec<Key> = (0..period).map(|_| r.of(keys)).collect();
    part.iter().copied().cycle().take(300).collect()
}

impl<'a> Maker<'a> {
    // Random connections, keys, a stream of events, one token or both, a time.
    pub fn new(r: &'a mut Random, x: Limits) -> Maker<'a> {
        let big = r.percent(10);
        let mut conns: Vec<u64> = (0..x.l.max(1) + r.below(2)).map(|i| if big { u64::MAX - 3 * i } else { i }).collect();
        conns.sort();
        let pool = if x.c > 20 { r.between(30, 200) } else { r.between(2, 6) };
        let first = r.of(&[0, 7]);
        let keys: Vec<Key> = (0..pool).map(|i| (first + i / 2, 9 + i % 2)).collect();
        let stream = stream(r, &keys);
        let now = if r.percent(10) { u64::MAX - 50_000 } else { r.between(0, 40_000) };
        let token = if r.percent(8) { Some(r.below(2)) } else { None };
        let busy = if token.is_some() { r.between(1, 20) } else { r.between(10, 150) };
        // with many print keys most calls are prints, so that the tables fill
        let prints = if x.c > 20 { r.between(100, 2_000) } else { 0 };
        Maker { r, x, conns, keys, stream, at: BTreeMap::new(), token, now, busy, prints, made: 0 }
    }

    // A market made by hand, and its words.
    pub fn market(&mut self, apart: u64) -> (Market, Vec<u64>) {
        let of = Made { conns: &self.conns, keys: &self.keys, stream: &self.stream, now: self.now, apart };
        let m = markets::market(self.r, self.x, &of);
        let words = writing::words(&m, self.x, self.r);
        (m, words)
    }

    pub fn clock(&mut self, tick: bool) -> u64 {
        let step = match self.r.below(100) {
            0..=59 => 0,
            // with a small log time goes on, so that a tick forgets a part of it
            60..=74 if self.x.g <= 40 => self.r.between(0, 2_500),
            60..=74 => 1,
            75 | 76 => self.r.of(&STEPS),
            77 => {
                self.now = self.now.saturating_sub(self.r.of(&STEPS));
                0
            }
            _ if tick => self.r.of(&STEPS[..10]),
            _ => 0,
        };
        self.now = self.now.saturating_add(step);
        self.now
    }

    // A connection, mostly one that is as wanted.
    fn conn(&mut self, m: &Market, wanted: impl Fn(Option<&Conn>) -> bool) -> u64 {
        let fit: Vec<u64> = self.conns.iter().copied().filter(|conn| wanted(m.lines.get(conn))).collect();
        if fit.is_empty() || self.r.percent(8) {
            return self.r.of(&self.conns);
        }
        self.r.of(&fit)
    }

    fn message(&mut self) -> u64 {
        self.made += 1;
        self.made
    }

    // A line's limit, now and then one that is refused.
    pub fn limit(&mut self) -> u64 {
        if self.r.percent(6) {
            return self.r.of(&[0, self.x.h + 1, u64::MAX]);
        }
        markets::limit(self.r, self.x)
    }

    fn subscribe(&mut self, m: &Market) -> Call {
        let conn = self.conn(m, |c| c.map_or(true, |c| c.line == Line::Failed));
        Call::Subscribe { conn, limit: self.limit() }
    }

    // Mostly a token that the line has not.
    fn snapshot(&mut self, m: &Market) -> Call {
        let conn = self.conn(m, |c| c.is_some_and(|c| c.line.due() || matches!(c.line, Line::Waiting { .. })));
        let lacks = |i: u64| match m.line(conn) {
            Some(Line::Waiting { items, .. }) => !items.iter().any(|item| matches!(item, Item::Snapshot(j, _) if *j == i)),
            Some(Line::InLine { due, .. }) => due[i as usize],
            _ => false,
        };
        let token = match self.token {
            Some(token) => token,
            None if self.r.percent(1) => self.r.between(2, 3),
            None if self.r.percent(70) && lacks(0) != lacks(1) => lacks(1) as u64,
            None => self.r.below(2),
        };
        Call::Snapshot { conn, token, message: self.message() }
    }

    fn key(&mut self, m: &Market, number: u64) -> Key {
        if self.r.percent(3) {
            return self.r.of(&self.keys);
        }
        match number.checked_sub(m.base).and_then(|i| m.log.get(i as usize)) {
            Some((k, _)) => *k,
            None => self.stream[(number % 300) as usize],
        }
    }

    fn book(&mut self, m: &Market) -> Call {
        let over = self.r.percent(15);
        let conn = self.conn(m, |c| {
            c.is_some_and(|c| match &c.line {
                Line::Failed => false,
                Line::InLine { .. } => true,
                Line::Waiting { items, .. } | Line::Pending { items, .. } => over || (items.len() as u64) < c.limit,
            })
        });
        let number = match m.line(conn) {
            Some(Line::InLine { next, .. }) => *next,
            Some(Line::Waiting { items, .. }) | Some(Line::Pending { items, .. }) => {
                let count = m.log.len() as u64;
                if !items.iter().any(|item| matches!(item, Item::Event(..))) {
                    let first = m.base.saturating_add(self.r.below(count + 3)).saturating_sub(self.r.below(3));
                    self.at.insert(conn, first);
                }
                let at = self.at.entry(conn).or_insert(m.base);
                let number = *at;
                *at = at.saturating_add(1);
                number
            }
            _ => 0,
        };
        Call::Book { conn, key: self.key(m, number), message: self.message() }
    }

    fn print(&mut self, m: &Market) -> Call {
        let holding = self.r.percent(50);
        let conn = self.conn(m, |c| match c.map(|c| &c.line) {
            None | Some(Line::Failed) => false,
            Some(Line::InLine { .. }) => !holding,
            _ => holding,
        });
        let held = |key: Key| m.lines.get(&conn).is_some_and(|c| c.held.iter().any(|(k, _)| *k == key));
        let mut key = self.r.of(&self.keys);
        if held(key) {
            // more often one that is not held
            key = self.r.of(&self.keys);
        }
        Call::Print { conn, key, message: self.message() }
    }

    // A snapshot that is missing where somebody is in line.
    fn wants_snapshot(m: &Market) -> bool {
        m.any_in_line() && m.each_line().any(|l| l.due() || matches!(l, Line::Waiting { .. }))
    }

    fn wants_tick(m: &Market) -> bool {
        m.any_in_line() && m.each_line().any(|l| matches!(l, Line::Pending { snapshot: Some(_), .. }))
    }

    pub fn call(&mut self, m: &Market) -> Call {
        let eager = if self.token.is_some() { 60 } else { 20 };
        if self.r.percent(eager) && Self::wants_snapshot(m) {
            return self.snapshot(m);
        }
        if self.r.percent(15) && Self::wants_tick(m) {
            return Call::Tick;
        }
        if self.r.below(100 + self.prints) >= 100 {
            return self.print(m);
        }
        match self.r.below(50 + self.busy) {
            _ if self.r.percent(60) && m.each_line().all(|l| matches!(l, Line::Failed)) => self.subscribe(m),
            0..=10 => self.print(m),
            11..=25 => self.snapshot(m),
            26..=33 => self.subscribe(m),
            34..=43 => Call::Tick,
            44 | 45 => Call::Drop { conn: self.conn(m, |c| c.is_some()) },
            46 => Call::Promote,
            47 if self.r.percent(60) => Call::Reset,
            48 | 49 => self.snapshot(m),
            _ => self.book(m),
        }
    }

    // A setup, or a query.
    pub fn other(&mut self) -> Call {
        let conn = self.r.of(&self.conns);
        match self.r.below(8) {
            0 => Call::Setup { limits: self.x, start: self.now },
            1 | 2 => Call::Setup { limits: self.out_of_range(), start: self.now },
            3 => Call::InLine { conn },
            4 => Call::AnyInLine,
            5 => Call::Servable,
            _ => Call::View { conn },
        }
    }

    // The limits with one out of range.
    fn out_of_range(&mut self) -> Limits {
        let mut all = self.x.all();
        let i = self.r.below(5) as usize;
        let most = MOST.all()[i];
        all[i] = self.r.of(&[0, 0, most + 1, most + 1, 1 << 63, u64::MAX]);
        Limits::of(&all)
    }

    // A call with how it is lent; of a hundred so many may be lent wrong.
    pub fn step(&mut self, m: &Market, wrong: u64) -> (Call, Manner) {
        if !self.r.percent(wrong) {
            return (self.call(m), Manner::Right);
        }
        let call = match self.r.below(12) {
            0..=2 => Call::Tick,
            3 => Call::Promote,
            4 => Call::Drop { conn: self.r.of(&self.conns) },
            5 => Call::Reset,
            6..=8 => self.other(),
            _ => self.call(m),
        };
        (call, self.manner(m))
    }

    fn manner(&mut self, m: &Market) -> Manner {
        let x = self.x;
        let mut changes = vec![
            (0, 17),
            (1, 0),
            (2, u64::MAX),
            (3, 65_537),
            (4, 0),
            (6, x.g + 1),
            (9, x.l + 1),
            (10, x.c + 1),
            (11, x.d + 1),
            (13, 513),
            (14, 513),
            (15, x.g),
        ];
        if !m.lines.is_empty() {
            // the limit of the first line
            let at = x.store() - (x.l * (7 * x.h + 64)) as usize + 10;
            changes.extend([(at, 0), (at, x.h + 1), (at, u64::MAX)]);
        }
        match self.r.below(10) {
            0 => Manner::Right,
            1 => Manner::Short(self.r.of(&[1, 1, 64, x.store() - 63, x.store()])),
            2 | 3 => {
                let (at, word) = self.r.of(&changes);
                Manner::Changed(at, word)
            }
            4 | 5 => Manner::Out,
            6 => Manner::Reports,
            7 => Manner::List,
            8 => self.r.of(&[Manner::Fewer, Manner::More, Manner::Answer(2), Manner::Answer(u64::MAX)]),
            _ => Manner::Answer(self.view_answer()),
        }
    }

    // A view answer for every line, mostly 0 or 1.
    pub fn view_answer(&mut self) -> u64 {
        if self.r.percent(3) {
            return self.r.between(2, 255);
        }
        self.r.below(2)
    }
}
