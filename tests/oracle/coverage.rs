// How often each answer, refusal, record, report and change of a line's kind was seen, and which of 01 were not.
use crate::failing;
use crate::reading::{Line, Market};
use crate::words::{Answer, Call, Limits, MOST};
use std::collections::BTreeMap;

// Each call's answers and refusals.
const CALLS: [(&str, &[&str], &[u64]); 13] = [
    ("setup", &["done"], &[1, 2]),
    ("subscribe", &["done"], &[1, 4, 18]),
    ("snapshot", &["apply", "held", "ignored"], &[1, 3, 5, 6, 9, 10]),
    ("book", &["apply", "duplicate", "held", "ignored", "diverged", "failed"], &[1, 3, 5, 9]),
    ("print", &["apply", "duplicate", "held", "ignored", "failed"], &[1, 3, 7, 8]),
    ("drop", &["kept", "gone", "rebuild"], &[1, 3]),
    ("promote", &["kept", "gone", "rebuild"], &[1, 3]),
    ("reset", &["done"], &[1]),
    ("tick", &["done"], &[1, 3, 11]),
    ("in line", &["yes", "no"], &[1]),
    ("any in line", &["yes", "no"], &[1]),
    ("servable", &["yes", "no"], &[1]),
    ("view", &["messages"], &[1, 3]),
];
const RECORDS: [&str; 4] = ["snapshot", "book", "print", "print, times 2 or more"];
const REPORTS: [&str; 3] = ["aligned", "rebuild", "failed"];
// What becomes of the rows of the print tables.
const ROWS: [&str; 7] = [
    "a key put among the new ones",
    "new keys merged by a print",
    "a pair put among the new ones",
    "new pairs merged by a print",
    "new rows merged by a tick",
    "pairs in order removed by a subscribe",
    "new pairs removed by a subscribe",
];
// What becomes of the log's ring.
const RING: [&str; 4] = [
    "a call on a log in two pieces",
    "an event pushed at place 0, behind the last",
    "events forgotten over the last place",
    "a line put in line while the log is in two pieces",
];
// What lines' limits do (request 5).
const LIMITS: [&str; 10] = [
    "failed by items, limit below H",
    "failed by items, limit H",
    "failed by items, more held than the limit",
    "failed by prints, limit below H",
    "failed by prints, limit H",
    "failed by prints, more held than the limit",
    "a snapshot held above the limit",
    "another limit by a new subscription",
    "refused 18, the connection has a line",
    "refused 18, a new connection with L lines",
];
const LISTS: [&str; 5] = ["L 1", "L 16", "H 1", "H 5000", "from a market made by hand"];

// Of a call, a record, a report, a list or a line's change: its word (for a change the old kind, then the new), and a refusal's number.
type What = (&'static str, &'static str, &'static str, u64);

// Where a store's log stands.
#[derive(Clone, Copy)]
pub struct Ring {
    pub g: u64,
    pub base: u64,
    pub count: u64,
    pub front: u64,
}

impl Ring {
    fn in_two_pieces(&self) -> bool {
        self.front + self.count > self.g
    }
}

#[derive(Default)]
pub struct Seen(BTreeMap<What, u64>);

// Whether 01 has this answer of the call.
pub fn named(call: &Call, p: &Answer) -> bool {
    CALLS.iter().any(|(name, words, numbers)| {
        *name == call.name() && if p.refused == 0 { words.contains(&p.word) } else { numbers.contains(&p.refused) }
    })
}

impl Seen {
    pub fn new() -> Seen {
        Seen::default()
    }

    fn see(&mut self, what: What) {
        *self.0.entry(what).or_insert(0) += 1;
    }

    pub fn answer(&mut self, call: &Call, p: &Answer) {
        self.see((call.name(), p.word, "", p.refused));
        for r in &p.records {
            self.see(("record", RECORDS[r.kind as usize], "", 0));
            if r.times > 1 {
                self.see(("record", RECORDS[3], "", 0));
            }
        }
        for r in &p.reports {
            self.see(("report", REPORTS[r.0 as usize], "", 0));
        }
    }

    // The answer, and the lines whose kind it changed.
    pub fn note(&mut self, call: &Call, p: &Answer, before: &Market, after: &Market) {
        self.answer(call, p);
        if p.refused != 0 || std::ptr::eq(before, after) || matches!(call, Call::Setup { .. }) {
            return;
        }
        for conn in before.lines.keys().chain(after.lines.keys().filter(|c| !before.lines.contains_key(c))) {
            let (a, e) = (kind(before.line(*conn)), kind(after.line(*conn)));
            if a != e {
                self.see((call.name(), a, e, 0));
            }
        }
    }

    // What a call did by the limits of lines, and to them.
    pub fn limits(&mut self, call: &Call, p: &Answer, before: &Market, after: &Market, x: Limits) {
        let mut see = |i: usize, yes: bool| {
            if yes {
                self.see(("limit", LIMITS[i], "", 0));
            }
        };
        let held = |m: &Market, conn| m.line(conn).map_or(0, |line| line.items().len() as u64);
        match *call {
            Call::Subscribe { conn, limit } => {
                let old = before.lines.get(&conn);
                see(7, p.refused == 0 && old.is_some_and(|c| c.limit != limit));
                see(8, p.refused == 18 && old.is_some());
                see(9, p.refused == 18 && old.is_none() && before.lines.len() as u64 == x.l);
            }
            _ if p.refused != 0 => {}
            Call::Snapshot { conn, .. } => {
                let stored = held(after, conn) > held(before, conn);
                see(6, stored && held(after, conn) > after.lines[&conn].limit);
            }
            _ => {
                let items = failing::by_items(before, call).map(|c| (c.limit, c.line.items().len() as u64));
                let prints = failing::by_prints(before, call).map(|c| (c.limit, c.held.len() as u64));
                for (first, failed) in [(0, items), (3, prints)] {
                    if let Some((limit, held)) = failed {
                        see(first, limit < x.h);
                        see(first + 1, limit == x.h);
                        see(first + 2, held > limit);
                    }
                }
            }
        }
    }

    // How many rows of keys and of pairs stood in order, and how many new ones behind them, before a call and after it.
    pub fn rows(&mut self, call: &Call, before: [(u64, u64); 2], after: [(u64, u64); 2]) {
        for (i, ((old, new), (old_after, new_after))) in before.into_iter().zip(after).enumerate() {
            let word = match call {
                Call::Print { .. } if old_after > old => ROWS[2 * i + 1],
                Call::Print { .. } if new_after > new => ROWS[2 * i],
                Call::Tick if new > 0 && new_after == 0 => ROWS[4],
                Call::Subscribe { .. } if old_after < old => ROWS[5],
                Call::Subscribe { .. } if new_after < new => ROWS[6],
                _ => continue,
            };
            self.see(("rows", word, "", 0));
        }
    }

    // The log's ring before a call and after it.
    pub fn ring(&mut self, before: Ring, after: Ring, entered: bool) {
        let pushed = after.base == before.base && after.count > before.count;
        let place_0 = before.front + before.count <= before.g && after.in_two_pieces();
        let forgotten = after.base > before.base && after.front < before.front;
        let all = [before.in_two_pieces(), pushed && place_0, forgotten, entered && before.in_two_pieces()];
        for (word, yes) in RING.into_iter().zip(all) {
            if yes {
                self.see(("ring", word, "", 0));
            }
        }
    }

    // What a list starts from.
    pub fn list(&mut self, x: Limits, by_hand: bool) {
        for (word, yes) in LISTS.into_iter().zip([x.l == 1, x.l == MOST.l, x.h == 1, x.h == MOST.h, by_hand]) {
            if yes {
                self.see(("list", word, "", 0));
            }
        }
    }

    fn count(&self, what: What) -> u64 {
        self.0.get(&what).copied().unwrap_or(0)
    }

    // Prints the table of what 01 has; what of it was not seen.
    pub fn table(&self) -> Vec<String> {
        let mut none = Vec::new();
        let mut line = |text: String, n: u64| {
            println!("{n:>12}  {text}");
            if n == 0 {
                none.push(text);
            }
        };
        for (name, words, numbers) in CALLS {
            for word in words {
                line(format!("{name}: {word}"), self.count((name, word, "", 0)));
            }
            for number in numbers {
                line(format!("{name}: refused {number}"), self.count((name, "refused", "", *number)));
            }
        }
        for number in (1..=11).chain([18]) {
            let all = self.0.iter().filter(|((_, word, _, n), _)| *word == "refused" && *n == number);
            line(format!("all calls: refused {number}"), all.map(|(_, n)| n).sum());
        }
        for word in RECORDS {
            line(format!("record: {word}"), self.count(("record", word, "", 0)));
        }
        for word in REPORTS {
            line(format!("report: {word}"), self.count(("report", word, "", 0)));
        }
        none
    }

    // The same of the tables' rows, of the log's ring and of what lists start from.
    pub fn lists(&self) -> Vec<String> {
        let rows = ROWS.map(|word| ("rows", word)).into_iter();
        self.others(rows.chain(RING.map(|word| ("ring", word))).chain(LISTS.map(|word| ("list", word))))
    }

    // The same of lines' limits.
    pub fn limited(&self) -> Vec<String> {
        self.others(LIMITS.map(|word| ("limit", word)).into_iter())
    }

    fn others(&self, words: impl Iterator<Item = (&'static str, &'static str)>) -> Vec<String> {
        let counts: Vec<_> = words.map(|(what, word)| (format!("{what}: {word}"), self.count((what, word, "", 0)))).collect();
        for (text, n) in &counts {
            println!("{n:>12}  {text}");
        }
        counts.into_iter().filter(|(_, n)| *n == 0).map(|(text, _)| text).collect()
    }

    // Prints how often a line's kind changed.
    pub fn changes(&self) {
        for ((name, a, e, _), n) in self.0.iter().filter(|((_, _, e, _), _)| !e.is_empty()) {
            println!("{n:>12}  line: {a} to {e}, by {name}");
        }
    }

    // What `other` has and this has not.
    pub fn lacks(&self, other: &Seen) -> usize {
        other.0.keys().filter(|what| !self.0.contains_key(*what)).count()
    }

    pub fn add(&mut self, other: Seen) {
        for (what, n) in other.0 {
            *self.0.entry(what).or_insert(0) += n;
        }
    }
}

// The name of a line's kind.
fn kind(line: Option<&Line>) -> &'static str {
    match line {
        None => "none",
        Some(Line::Waiting { .. }) => "Waiting",
        Some(Line::Pending { snapshot: None, .. }) => "Pending without snapshot",
        Some(Line::Pending { .. }) => "Pending",
        Some(Line::InLine { .. }) => "in line",
        Some(Line::Failed) => "Failed",
    }
}
