//! A list on both sides, compared after every call.
use crate::lists::{self, Call, Maker, Random, Setup, Timed};
use crate::{merge, shim};
use pollendrift::{Applied, EventKey, Expired, Lost, MarketMerge, Refusal, Step};
use std::cell::Cell;
use std::collections::BTreeMap;
use std::fmt::Debug;
use std::rc::Rc;
use std::time::{Duration, Instant};

/// How often each answer was seen.
pub type Seen = BTreeMap<String, u64>;

/// Answers that enough lists come to.
pub const ANSWERS: [&str; 22] = [
    "Apply",
    "Duplicate",
    "Held",
    "Ignored",
    "Diverged",
    "Failed",
    "Kept",
    "Gone",
    "Rebuild",
    "tick Aligned",
    "tick Rebuild",
    "tick Failed",
    "a print repeated",
    "several put out",
    "an event failed by the line's own limit",
    "a print failed by the line's own limit",
    "refused 4",
    "refused 5",
    "refused 7",
    "refused 9",
    "refused 10",
    "refused 18",
];

/// A message that is counted while it lives.
#[derive(Debug)]
struct Message {
    number: u64,
    live: Rc<Cell<usize>>,
}

impl Message {
    fn new(number: u64, live: &Rc<Cell<usize>>) -> Message {
        live.set(live.get() + 1);
        Message {
            number,
            live: live.clone(),
        }
    }
}

impl Clone for Message {
    fn clone(&self) -> Message {
        Message::new(self.number, &self.live)
    }
}

impl Drop for Message {
    fn drop(&mut self) {
        self.live.set(self.live.get() - 1);
    }
}

/// Connection, message, whether it is a snapshot.
type Put = (u64, u64, bool);

fn puts(out: &[Applied<Message>]) -> Vec<Put> {
    out.iter()
        .map(|a| (a.conn, a.msg.number, a.snapshot))
        .collect()
}

fn same_puts(out: &[Applied<Message>], other: &[merge::Applied]) -> bool {
    puts(out)
        .into_iter()
        .eq(other.iter().map(|a| (a.conn, a.msg, a.snapshot)))
}

fn same_step(step: &Step<Applied<Message>>, other: &merge::Step) -> bool {
    match (step, other) {
        (Step::Apply(a), merge::Step::Apply(b)) => same_puts(a, b),
        (Step::Duplicate, merge::Step::Duplicate)
        | (Step::Held, merge::Step::Held)
        | (Step::Ignored, merge::Step::Ignored)
        | (Step::Diverged, merge::Step::Diverged)
        | (Step::Failed, merge::Step::Failed) => true,
        _ => false,
    }
}

fn same_lost(lost: &Lost<Applied<Message>>, other: &merge::Lost) -> bool {
    match (lost, other) {
        (Lost::Kept, merge::Lost::Kept) | (Lost::Gone, merge::Lost::Gone) => true,
        (Lost::Rebuild(a), merge::Lost::Rebuild(b)) => same_puts(a, b),
        _ => false,
    }
}

fn same_reports(expired: &[Expired<Applied<Message>>], other: &[merge::Expired]) -> bool {
    let same = |pair: (&Expired<Applied<Message>>, &merge::Expired)| match pair {
        (Expired::Aligned(c, a), merge::Expired::Aligned(d, b)) => c == d && same_puts(a, b),
        (Expired::Rebuild(c, a), merge::Expired::Rebuild(d, b)) => c == d && same_puts(a, b),
        (Expired::Failed(c), merge::Expired::Failed(d)) => c == d,
        _ => false,
    };
    expired.len() == other.len() && expired.iter().zip(other).all(same)
}

struct Sides<'a> {
    setup: &'a Setup,
    drop_in: MarketMerge<Message>,
    original: merge::MarketMerge,
    zero: Instant,
    live: Rc<Cell<usize>>,
    /// Connections that failed or were ignored in the last call.
    failed: Vec<u64>,
    seen: &'a mut Seen,
}

/// Runs a list on both sides: how many calls it had, or where they differ, the list and in what.
pub fn run(random: &mut Random, seen: &mut Seen) -> Result<u64, String> {
    let setup = lists::setup(random);
    let length = random.between(10, 250);
    let mut maker = Maker::new(random, &setup);
    let original = merge::MarketMerge {
        base: setup.start,
        ..Default::default()
    };
    let mut sides = Sides {
        setup: &setup,
        drop_in: MarketMerge::with_start(setup.limits, setup.start).expect("limits in range"),
        original,
        zero: Instant::now(),
        live: Rc::default(),
        failed: Vec::new(),
        seen,
    };
    let mut list: Vec<Timed> = Vec::new();
    for number in 0..length {
        let (call, t) = maker.call();
        list.push((call, t));
        let result = sides.call(number, call, t).and_then(|()| sides.check());
        result.map_err(|why| format!("{setup:?}\n{list:#?}\n{why}"))?;
        sides.failed.drain(..).for_each(|conn| maker.failed(conn));
    }
    Ok(length)
}

fn alike<A: Debug, B: Debug>(
    same: fn(&A, &B) -> bool,
    drop_in: &A,
    original: &B,
) -> Result<(), String> {
    if same(drop_in, original) {
        return Ok(());
    }
    Err(format!("drop-in {drop_in:?}, original {original:?}"))
}

impl Sides<'_> {
    fn call(&mut self, number: u64, call: Call, t: u64) -> Result<(), String> {
        let (now, then) = (self.zero + Duration::from_millis(t), shim::Instant(t));
        let msg = &Message::new(number, &self.live);
        let new = |k: (u64, u64)| EventKey::new(k.0, k.1);
        let old = |k: (u64, u64)| merge::EventKey(k.0, k.1);
        match call {
            Call::Subscribe(conn, limit) => return self.subscribe(conn, limit, now, then),
            Call::Snapshot(conn, token) => {
                let step = self.drop_in.snapshot(conn, token, msg, now);
                return self.step(step, |m| m.snapshot(conn, token, &number, then));
            }
            Call::Book(conn, key) => {
                let step = self.drop_in.book_event(conn, new(key), msg, now);
                self.see_failed(&step, conn, "an event");
                return self.step(step, |m| m.book_event(conn, old(key), &number, then));
            }
            Call::Other(conn, key) => {
                let step = self.drop_in.other(conn, new(key), msg, now);
                self.see_failed(&step, conn, "a print");
                return self.step(step, |m| m.other(conn, old(key), &number, then));
            }
            Call::Drop(conn) => {
                let lost = self.drop_in.drop_conn(conn, now);
                return self.lost(lost, |m| m.drop_conn(conn, then));
            }
            Call::Promote => {
                let lost = self.drop_in.promote(now);
                return self.lost(lost, |m| m.promote(then));
            }
            Call::Reset => {
                self.drop_in.reset(now);
                self.original.reset(then);
            }
            Call::Tick => return self.tick(now, then),
        }
        Ok(())
    }

    /// By `subscribe` where the line has no limit of its own. The original refuses nothing: which refusal is due is worked out here.
    fn subscribe(
        &mut self,
        conn: u64,
        own: Option<u64>,
        now: Instant,
        then: shim::Instant,
    ) -> Result<(), String> {
        let limits = self.setup.limits;
        let limit = own.unwrap_or(limits.held);
        let lines = &self.original.lines;
        let due = if limit == 0 || limit > limits.held {
            Err(Refusal::LineLimit)
        } else if !lines.contains_key(&conn) && lines.len() as u64 == limits.lines {
            Err(Refusal::Lines)
        } else {
            Ok(())
        };
        let done = match own {
            None => self.drop_in.subscribe(conn, now),
            Some(limit) => self.drop_in.subscribe_with_limit(conn, limit, now),
        };
        match done {
            Ok(()) => self.original.subscribe(conn, limit as usize, then),
            Err(refusal) => self.see(format!("refused {}", refusal.number())),
        }
        alike(|a, b| a == b, &done, &due)
    }

    /// A refused call is not made on the original.
    fn step(
        &mut self,
        step: Step<Applied<Message>>,
        call: impl Fn(&mut merge::MarketMerge) -> merge::Step,
    ) -> Result<(), String> {
        match &step {
            Step::Refused(refusal) => {
                self.see(format!("refused {}", refusal.number()));
                return Ok(());
            }
            Step::Apply(out) => {
                self.see("Apply".into());
                self.see_records(out);
            }
            other => self.see(format!("{other:?}")),
        }
        alike(same_step, &step, &call(&mut self.original))
    }

    fn lost(
        &mut self,
        lost: Lost<Applied<Message>>,
        call: impl Fn(&mut merge::MarketMerge) -> merge::Lost,
    ) -> Result<(), String> {
        match &lost {
            Lost::Rebuild(out) => {
                self.see("Rebuild".into());
                self.see_records(out);
            }
            other => self.see(format!("{other:?}")),
        }
        alike(same_lost, &lost, &call(&mut self.original))
    }

    fn tick(&mut self, now: Instant, then: shim::Instant) -> Result<(), String> {
        let setup = self.setup;
        let view = |view: &[&Message]| {
            let numbers: Vec<&u64> = view.iter().map(|message| &message.number).collect();
            setup.same_view(&numbers)
        };
        let expired = self.drop_in.tick(now, &view);
        for report in &expired {
            match report {
                Expired::Aligned(_, out) => {
                    self.see("tick Aligned".into());
                    self.see_records(out);
                }
                Expired::Rebuild(..) => self.see("tick Rebuild".into()),
                Expired::Failed(conn) => {
                    self.see("tick Failed".into());
                    self.failed.push(*conn);
                }
            }
        }
        let other = self.original.tick(then, &|view| setup.same_view(view));
        alike(|a, b| same_reports(a, b), &expired, &other)
    }

    /// The queries, and that the drop-in keeps what the original holds and no more.
    fn check(&self) -> Result<(), String> {
        let (new, old) = (&self.drop_in, &self.original);
        let same_line = |conn: &u64| new.in_line(*conn) == old.in_line(*conn);
        let lines = old.lines.keys().chain([&1]).all(same_line);
        if !lines || new.any_in_line() != old.any_in_line() || new.servable() != old.servable() {
            return Err("the queries differ".into());
        }
        let limits = new.reading().lines.into_iter();
        let limits = limits.map(|line| (line.conn, line.limit as usize));
        if !limits.eq(old.limits.iter().map(|(conn, limit)| (*conn, *limit))) {
            return Err("the lines' limits differ".into());
        }
        let items = old.lines.values().map(|line| match line {
            merge::Line::Waiting { items, .. } | merge::Line::Pending { items, .. } => items.len(),
            _ => 0,
        });
        let held = items.sum::<usize>() + old.held_prints.values().map(Vec::len).sum::<usize>();
        let (kept, live) = (new.held_messages(), self.live.get());
        if kept != held || live != held {
            return Err(format!(
                "the original holds {held} messages, the drop-in {kept}; {live} live"
            ));
        }
        Ok(())
    }

    fn see(&mut self, what: String) {
        *self.seen.entry(what).or_insert(0) += 1;
    }

    /// A connection that failed or is ignored. The original has not made the call yet: one that it does not have in line failed by its
    /// limit, which is the line's own where it is below the market's.
    fn see_failed(&mut self, step: &Step<Applied<Message>>, conn: u64, what: &str) {
        if !matches!(step, Step::Failed | Step::Ignored) {
            return;
        }
        self.failed.push(conn);
        let limit = self.original.limits.get(&conn).copied();
        let own = limit.is_some_and(|limit| (limit as u64) < self.setup.limits.held);
        if own && matches!(step, Step::Failed) && !self.original.in_line(conn) {
            self.see(format!("{what} failed by the line's own limit"));
        }
    }

    fn see_records(&mut self, out: &[Applied<Message>]) {
        if out.len() > 1 {
            self.see("several put out".into());
        }
        if puts(out).windows(2).any(|two| two[0] == two[1]) {
            self.see("a print repeated".into());
        }
    }
}
