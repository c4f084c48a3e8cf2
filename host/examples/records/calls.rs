//! Call lists as text (support/calls.py says the form), run on a market.
use pollendrift::{EventKey, Expired, Limits, Lost, MarketMerge, Repeated, Step};
use std::collections::BTreeSet;
use std::time::{Duration, Instant};

/// A host's message: here its kind, key and number.
#[derive(Clone)]
pub struct Message {
    kind: char,
    key: (u64, u64),
    number: u64,
}

/// What is to be applied, with the count of copies that the replay program writes.
type Put = Repeated<Message>;

/// A market with the limits of the replay program, the connections that have a line there, and the instant of its time 0.
pub struct Desk {
    merge: MarketMerge<Message, Put>,
    lines: BTreeSet<u64>,
    zero: Instant,
}

impl Desk {
    pub fn new() -> Desk {
        let limits = Limits {
            lines: 4,
            held: 32,
            events: 128,
            keys: 32,
            pairs: 128,
        };
        Desk {
            merge: MarketMerge::new(limits)
                .expect("the limits are in range")
                .repeated(),
            lines: BTreeSet::new(),
            zero: Instant::now(),
        }
    }

    /// Makes the call of one line of a list; the answer and its records, a line each. Nothing where the line has no call.
    pub fn call(&mut self, line: &str) -> Result<Vec<String>, String> {
        let text = line.split('#').next().unwrap_or("");
        let words: Vec<&str> = text.split_whitespace().collect();
        let (call, numbers) = match words.split_first() {
            None => return Ok(Vec::new()),
            Some((call, rest)) => (*call, numbers(rest)),
        };
        let m = &mut self.merge;
        let at = |t: u64| self.zero + Duration::from_millis(t);
        let message = |kind, key, number| Message { kind, key, number };
        Ok(match (call, &numbers[..]) {
            ("subscribe", &[conn, t]) => match m.subscribe(conn, at(t)) {
                Ok(()) => {
                    self.lines.insert(conn);
                    vec!["done".into()]
                }
                Err(refusal) => vec![format!("refused {}", refusal.number())],
            },
            ("snapshot", &[conn, token, number, t]) => {
                step(m.snapshot(conn, token as usize, &message('s', (0, 0), number), at(t)))
            }
            ("book", &[conn, k0, k1, number, t]) => {
                let msg = message('b', (k0, k1), number);
                step(m.book_event(conn, EventKey::new(k0, k1), &msg, at(t)))
            }
            ("print", &[conn, k0, k1, number, t]) => {
                let msg = message('p', (k0, k1), number);
                step(m.other(conn, EventKey::new(k0, k1), &msg, at(t)))
            }
            ("drop", &[conn, t]) => {
                self.lines.remove(&conn);
                lost(m.drop_conn(conn, at(t)))
            }
            ("promote", &[t]) => lost(m.promote(at(t))),
            ("reset", &[t]) => {
                m.reset(at(t));
                vec!["done".into()]
            }
            // a view answer is a bool here; the words of a list may be others
            ("tick", &[view, _]) if view > 1 && !self.lines.is_empty() => vec!["refused 11".into()],
            ("tick", &[view, t]) => ticked(m.tick(at(t), &|_| view != 0)),
            _ => return Err(format!("this is no call: {text}")),
        })
    }
}

/// The numbers of a call, without the words between them.
fn numbers(words: &[&str]) -> Vec<u64> {
    let name = |word: &&&str| !["token", "message", "at", "view"].contains(*word);
    let parsed = words.iter().filter(name).map(|word| word.parse());
    parsed.collect::<Result<_, _>>().unwrap_or_default()
}

fn put(applied: Put) -> String {
    let Message { kind, key, number } = applied.msg;
    format!(
        "put {} {kind} {} {} {number} {}",
        applied.conn, key.0, key.1, applied.repeat
    )
}

fn with_records(answer: String, out: Vec<Put>) -> Vec<String> {
    std::iter::once(answer)
        .chain(out.into_iter().map(put))
        .collect()
}

fn step(step: Step<Put>) -> Vec<String> {
    match step {
        Step::Apply(out) => with_records("apply".into(), out),
        Step::Duplicate => vec!["duplicate".into()],
        Step::Held => vec!["held".into()],
        Step::Ignored => vec!["ignored".into()],
        Step::Diverged => vec!["diverged".into()],
        Step::Failed => vec!["failed".into()],
        Step::Refused(refusal) => vec![format!("refused {}", refusal.number())],
    }
}

fn lost(lost: Lost<Put>) -> Vec<String> {
    match lost {
        Lost::Kept => vec!["kept".into()],
        Lost::Gone => vec!["gone".into()],
        Lost::Rebuild(out) => with_records("rebuild".into(), out),
    }
}

fn ticked(expired: Vec<Expired<Put>>) -> Vec<String> {
    let report = |e| match e {
        Expired::Aligned(conn, out) => with_records(format!("aligned {conn}"), out),
        Expired::Rebuild(conn, out) => with_records(format!("rebuild {conn}"), out),
        Expired::Failed(conn) => vec![format!("failed {conn}")],
    };
    std::iter::once("done".into())
        .chain(expired.into_iter().flat_map(report))
        .collect()
}
