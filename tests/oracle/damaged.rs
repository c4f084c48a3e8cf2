// damaged CALLS SEED: the proved calls on arbitrary words: stores made by calls or by hand with words changed, random words, lists of
// any length. A call has to be refused exactly where 01 says, with no lent word changed, and to leave a sound store where it is not.
#![allow(dead_code)]
mod calling;
mod coverage;
mod damage;
mod exported;
mod failing;
mod markets;
mod random;
mod reading;
mod refusals;
mod sound;
mod words;
mod writing;

use calling::Maker;
use coverage::Seen;
use damage::Places;
use exported::{Lent, UNTOUCHED};
use random::Random;
use reading::{reading, Line, Market};
use sound::{fault, sound, FAULTS};
use std::process::exit;
use std::time::Instant;
use words::{Answer, Call, Limits, MOST};

// So many calls see all that 01 has.
const ENOUGH: u64 = 200_000;

const SORTS: [&str; 5] =
    ["made by calls", "made by hand", "words changed or another length", "random words", "all but the limits sound"];

// How many calls came to stores of each sort, how many of these were sound, and what was wrong first with the others.
struct Stores {
    sorts: [(u64, u64); SORTS.len()],
    faults: [u64; FAULTS.len()],
}

impl Stores {
    fn new() -> Stores {
        Stores { sorts: [(0, 0); SORTS.len()], faults: [0; FAULTS.len()] }
    }

    fn see(&mut self, sort: usize, fault: Option<usize>) {
        self.sorts[sort].0 += 1;
        match fault {
            None => self.sorts[sort].1 += 1,
            Some(i) => self.faults[i] += 1,
        }
    }

    // Prints them; which faults were not seen.
    fn table(&self) -> Vec<String> {
        for (name, n) in FAULTS.iter().zip(self.faults) {
            println!("{n:>12}  calls on unsound stores: {name}");
        }
        for (name, (calls, sound)) in SORTS.iter().zip(self.sorts) {
            println!("{calls:>12}  calls on stores: {name}; sound {sound}");
        }
        FAULTS.iter().zip(self.faults).filter(|(_, n)| *n == 0).map(|(name, _)| name.to_string()).collect()
    }
}

// Small limits; now and then the largest, or one that is just out of range.
fn limits(r: &mut Random, round: u64) -> Limits {
    if round % 20_000 == 10_000 {
        return MOST;
    }
    let mut x =
        Limits { l: r.between(1, 4), h: r.between(1, 6), g: r.of(&[1, 4, 12, 40, 40]), c: r.between(1, 5), d: r.between(1, 8) };
    if r.percent(8) {
        (x.c, x.d) = (r.between(30, 100), r.between(40, 300));
    }
    if r.percent(1) {
        let low = r.percent(40);
        let out = |most: u64| if low { 0 } else { most + 1 };
        match r.below(40) {
            0 => x.g = out(MOST.g),
            1..=4 => x.c = out(MOST.c),
            5..=8 => x.d = out(MOST.d),
            9..=20 => (x.l, x.h) = (1, out(MOST.h)),
            _ => x.l = out(MOST.l),
        }
    }
    x
}

// The store that some calls leave. In half of the stores the words that mean nothing are 0.
fn by_calls(maker: &mut Maker, x: Limits) -> Vec<u64> {
    let start = maker.r.of(&[0, 5, u64::MAX - 20, u64::MAX]);
    let mut lent = Lent::setup(x, start, 0);
    for _ in 0..maker.r.below(if x.c > 20 { 400 } else { 60 }) {
        let m = reading(&lent.store).expect("calls leave a sound store");
        let call = maker.call(&m);
        lent.answers = m.each_line().map(|_| maker.r.below(2)).collect();
        lent.call(&call, maker.clock(call == Call::Tick)).expect("calls answer");
    }
    if maker.r.percent(50) {
        lent.store.iter_mut().filter(|w| **w == UNTOUCHED).for_each(|w| *w = 0);
    }
    lent.store
}

// The words of a round, and their sort.
fn store(maker: &mut Maker, x: Limits) -> (Vec<u64>, usize) {
    let (mut w, sort) = match maker.r.below(10) {
        0 => return (damage::random(x, maker.r), 3),
        1..=5 if x != MOST && x.in_range() => (by_calls(maker, x), 0),
        _ => (maker.market(u32::MAX as u64).1, 1),
    };
    if !x.in_range() {
        return (w, 4);
    }
    let changes = maker.r.of(&[0, 0, 1, 1, 1, 1, 2, 2, 3]);
    for _ in 0..changes {
        Places::new(x).change(&mut w, maker.r);
    }
    let cut = maker.r.percent(12);
    if cut {
        damage::length(&mut w, x.store(), maker.r);
    }
    (w, if changes > 0 || cut { 2 } else { sort })
}

// A list of the length that is needed, or another.
fn list(needed: usize, r: &mut Random) -> Vec<u64> {
    let n = match r.below(20) {
        0 => r.of(&[0, 1, needed.saturating_sub(1), needed / 2]),
        1 => needed + r.below(10) as usize,
        _ => needed,
    };
    vec![UNTOUCHED; n]
}

fn answers(lines: u64, r: &mut Random) -> Vec<u64> {
    let lines = lines.min(20);
    let n = if r.percent(5) { r.below(lines + 2) } else { lines };
    let wrong = r.percent(5);
    (0..n).map(|_| if wrong { r.of(&[0, 1, 2, u64::MAX]) } else { r.below(2) }).collect()
}

// A call of any kind.
fn any(maker: &mut Maker) -> Call {
    let conn = if maker.r.percent(90) { maker.r.of(&maker.conns) } else { maker.r.next() };
    let key = maker.r.of(&maker.keys);
    match maker.r.below(12) {
        0 => Call::Subscribe { conn, limit: maker.limit() },
        1 => Call::Snapshot { conn, token: maker.r.of(&[0, 0, 1, 1, 2, u64::MAX]), message: 1 },
        2 | 3 => Call::Book { conn, key, message: 2 },
        4 | 5 => Call::Print { conn, key, message: 3 },
        6 => Call::Drop { conn },
        7 => Call::Promote,
        8 => Call::Reset,
        9 => Call::Tick,
        _ => maker.other(),
    }
}

// What the answer has to be beyond its refusal: the rules' for a query and for lines' limits, and sums that any call keeps.
fn check_answer(p: &Answer, call: &Call, before: &Market, after: &Market) -> Result<(), String> {
    let serves = |line: &Line| !matches!(line, Line::Failed | Line::Pending { snapshot: None, .. });
    let yes = match call {
        Call::InLine { conn } => matches!(before.line(*conn), Some(Line::InLine { .. })),
        Call::AnyInLine => before.any_in_line(),
        Call::Servable => before.each_line().any(serves),
        Call::View { conn } => p.messages == before.line(*conn).map(Line::view).unwrap_or_default(),
        _ => p.word != "no",
    };
    let books = p.records.iter().filter(|r| r.kind == 1);
    let numbered = books.clone().zip(before.end()..).all(|(r, number)| r.number == number);
    let reported: u64 = p.reports.iter().map(|r| r.2).sum();
    let known = p.records.iter().all(|r| r.kind <= 2 && r.times > 0) && p.reports.iter().all(|r| r.0 <= 2);
    let ends = matches!(call, Call::Setup { .. }) || before.end() as u128 + books.count() as u128 == after.end() as u128;
    let counted = !matches!(call, Call::Tick) || reported == p.records.len() as u64;
    let limited = fails(p, call, before, after) && limits_stay(call, before, after);
    if yes == (p.word != "no") && numbered && known && ends && counted && limited {
        return Ok(());
    }
    Err(format!("{p:?}\n  before: {before:?}\n  after: {after:?}"))
}

// A book event or a print answers failed exactly where the line's limit, or a next below base, makes it.
fn fails(p: &Answer, call: &Call, before: &Market, after: &Market) -> bool {
    let behind = |conn| matches!(before.line(conn), Some(Line::InLine { next, .. }) if *next < before.base);
    let limited = failing::by_items(before, call).or(failing::by_prints(before, call)).is_some();
    match *call {
        Call::Book { conn, .. } | Call::Print { conn, .. } if p.word == "failed" => {
            let book = matches!(call, Call::Book { .. });
            (limited || book && behind(conn)) && after.line(conn) == Some(&Line::Failed)
        }
        _ => !limited,
    }
}

// A line's limit is that of its subscription, if this call is one, and else as before.
fn limits_stay(call: &Call, before: &Market, after: &Market) -> bool {
    let limit = |conn: &u64| match call {
        Call::Subscribe { conn: own, limit } if own == conn => Some(*limit),
        _ => before.lines.get(conn).map(|c| c.limit),
    };
    after.lines.iter().all(|(conn, c)| limit(conn) == Some(c.limit))
}

// Makes a call and tests all that has to hold. No market: the store is not sound.
fn check(lent: &mut Lent, market: Option<&Market>, call: &Call, t: u64, seen: &mut Seen) -> Result<(), String> {
    let x = market.map_or(MOST, |_| Limits::of(&lent.store));
    let number = refusals::expected(market, x, call, lent);
    let before = lent.clone();
    let p = lent.call(call, t)?;
    seen.answer(call, &p);
    if p.refused != number || !coverage::named(call, &p) {
        return Err(format!("answers {} {}, and has to be refused with {number} (0: not)", p.word, p.refused));
    }
    let query = matches!(call, Call::InLine { .. } | Call::AnyInLine | Call::Servable | Call::View { .. });
    if (number != 0 || query) && *lent != before {
        return Err("a lent word changed".into());
    }
    if number == 0 {
        let x = if let Call::Setup { limits, .. } = call { *limits } else { x };
        if !sound(&lent.store) || Limits::of(&lent.store) != x || lent.answers != before.answers {
            return Err("the store is not sound any more, or has other limits".into());
        }
        let after = reading(&lent.store)?;
        check_answer(&p, call, market.unwrap_or(&after), &after)?;
        market.inspect(|before| seen.limits(call, &p, before, &after, x));
    } else if let Some(before) = market {
        seen.limits(call, &p, before, before, x);
    }
    Ok(())
}

// One random call on a store of these limits.
fn one(lent: &mut Lent, maker: &mut Maker, x: Limits, seen: &mut Seen) -> Result<(), String> {
    let market = if sound(&lent.store) { Some(reading(&lent.store)?) } else { None };
    let call = match &market {
        Some(m) if maker.r.percent(60) => maker.call(m),
        _ => any(maker),
    };
    let t = if maker.r.percent(3) { maker.r.of(&[0, u64::MAX]) } else { maker.clock(call == Call::Tick) };
    lent.out = list(x.records(), maker.r);
    lent.reports = list(x.reports(), maker.r);
    lent.list = list(x.items(), maker.r);
    lent.answers = answers(lent.store.get(9).copied().unwrap_or(0), maker.r);
    check(lent, market.as_ref(), &call, t, seen).map_err(|why| format!("{call:?} at {t}: {why}"))
}

// The calls of a round, all on one store; how many.
fn round(seed: u64, i: u64, seen: &mut Seen, stores: &mut Stores) -> Result<u64, String> {
    let mut r = Random::part(seed, i);
    let x = limits(&mut r, i);
    let mut maker = Maker::new(&mut r, x);
    let (words, sort) = store(&mut maker, x);
    // the lists that these words ask for, unless they ask for far more
    let said = if words.len() > 64 { Limits::of(&words) } else { x };
    let x = if said.in_range() && said.h <= x.h + 1 { said } else { x };
    let mut lent = Lent::new(words, x, 0);
    let calls = if x.store() > 10_000 { 3 } else { maker.r.between(1, 16) };
    for n in 0..calls {
        stores.see(sort, fault(&lent.store));
        let before = lent.store.clone();
        one(&mut lent, &mut maker, x, seen).map_err(|why| {
            let words = if before.len() < 2_000 { format!("{before:?}") } else { format!("of {} words", before.len()) };
            format!("seed {seed}, round {i}, call {n}: {why}\nstore {words}")
        })?;
    }
    Ok(calls)
}

fn main() {
    let args: Vec<u64> = std::env::args().skip(1).map(|a| a.parse().expect("usage: damaged CALLS SEED")).collect();
    let [count, seed] = args[..] else { panic!("usage: damaged CALLS SEED") };
    let begin = Instant::now();
    let (mut seen, mut stores) = (Seen::new(), Stores::new());
    let (mut i, mut made) = (0, 0);
    while made < count {
        match round(seed, i, &mut seen, &mut stores) {
            Ok(calls) => made += calls,
            Err(why) => {
                println!("WRONG: {why}\nfound after {:.1} s", begin.elapsed().as_secs_f64());
                exit(1);
            }
        }
        i += 1;
    }
    let mut none = seen.table();
    none.extend(seen.limited());
    none.extend(stores.table());
    println!("right: seed {seed}, {i} stores, {made} calls, {:.0} s", begin.elapsed().as_secs_f64());
    if made >= ENOUGH && !none.is_empty() {
        println!("NOT SEEN: {}", none.join("; "));
        exit(1);
    }
}
