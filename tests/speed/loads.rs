// The loads: lists of calls, in parts that are measured and parts that are not.
use crate::feed::{print_key, Feed, Part, STRANGE};
use crate::table::number;
use pollendrift::Limits;

pub struct Load {
    pub name: String,
    pub what: String,
    pub limits: Limits,
    pub parts: Vec<Part>,
    // how many calls are measured where each tests the store
    pub tested: usize,
}

fn load(name: String, what: String, feed: Feed) -> Load {
    Load { name, what, limits: Limits::default(), parts: feed.parts, tested: 4_000 }
}

// Everybody in line, a tick every second.
fn steady(conns: u64, rate: u64) -> Load {
    let mut f = Feed::new();
    let mut next = f.in_line(conns, rate);
    f.part(true);
    let seconds = (4_000 / rate).clamp(1, 25);
    for _ in 0..seconds {
        f.race(1, conns, next, next + rate);
        next += rate;
        f.t += 1_000;
        f.tick();
    }
    load(format!("steady-{conns}-{rate}"), format!("steady: {conns} in line, {} events/s, a tick a second", number(rate)), f)
}

// How many connections deliver prints: count pairs are limited.
fn printers(keys: u64) -> u64 {
    if keys > 16_384 { 1 } else { 4 }
}

fn with_keys(mut load: Load, keys: u64) -> Load {
    load.limits.keys = load.limits.keys.max(keys);
    load.tested = if keys < 10_000 { 4_000 } else { 40 };
    load
}

fn deliver(f: &mut Feed, conns: u64, number: u64) {
    for conn in 1..=conns {
        f.print(conn, number);
    }
}

// The numbers of the first prints. Many are given in the order of their keys, which a sorted table takes fastest.
fn first_prints(keys: u64) -> Vec<u64> {
    let mut numbers: Vec<u64> = (0..keys).collect();
    if keys >= 10_000 {
        numbers.sort_by_key(|&number| print_key(number));
    }
    numbers
}

// New prints, each delivered by all, at a rate that keeps so many in use; a tick for every tenth of them.
fn prints(keys: u64) -> Load {
    let (mut f, conns) = (Feed::new(), printers(keys));
    f.in_line(conns, 1);
    let kept = keys.min(65_000);
    let step = (kept / 10).max(10);
    let start = f.t;
    let new = if keys < 10_000 { 4_000 / (step * conns) * step } else { 500 };
    let mut numbers = first_prints(kept);
    numbers.extend(kept..kept + new);
    for (i, &number) in numbers.iter().enumerate() {
        if i as u64 == kept {
            f.part(true);
        }
        f.t = start + i as u64 * 30_000 / kept;
        deliver(&mut f, conns, number);
        if (i as u64 + 1) % step == 0 {
            f.tick();
        }
    }
    with_keys(load(format!("prints-{keys}"), format!("new prints: {} keys in use, {conns} in line", number(keys)), f), keys)
}

// Further copies of prints that are all in use.
fn copies(keys: u64) -> Load {
    let (mut f, conns) = (Feed::new(), printers(keys));
    f.in_line(conns, 1);
    for number in first_prints(keys) {
        deliver(&mut f, conns, number);
    }
    f.part(true);
    for _ in 0..4_000 / conns {
        let number = f.below(keys);
        deliver(&mut f, conns, number);
    }
    with_keys(load(format!("copies-{keys}"), format!("copies of prints: {} keys in use, {conns} in line", number(keys)), f), keys)
}

// A newcomer's eight events beside those of three in line, two behind or three ahead of them.
fn newcomer(f: &mut Feed, next: u64, ahead: bool) {
    f.subscribe(4);
    f.snapshots(4);
    for number in next..next + 8 {
        f.event(4, if ahead { number + 3 } else { number - 2 });
        for conn in 1..=3 {
            f.event(conn, number);
        }
    }
    f.drop_conn(4);
}

// Newcomers line up, one after the other, while three in line go on; the first `before` of them are not measured.
fn join(log: u64, ahead: bool, before: u64) -> Load {
    let mut f = Feed::new();
    let mut next = f.in_line(3, log / 10);
    let (start, mut ticked) = (f.t, f.t);
    for cycle in 0..before + 40 {
        if cycle == before {
            f.part(true);
        }
        newcomer(&mut f, next, ahead);
        next += 8;
        f.t = start + (cycle + 1) * 80_000 / log;
        if f.t >= ticked + 1_000 {
            f.tick();
            ticked = f.t;
        }
    }
    let (name, place) = if ahead { ("ahead", "3 events ahead") } else { ("behind", "2 events behind") };
    load(format!("{name}-{log}"), format!("newcomers {place}: 3 in line, log of {}", number(log)), f)
}

// The same where the log of a small event limit stands in two pieces, at the end of its area and at its start.
fn join_turned(log: u64, ahead: bool) -> Load {
    let mut load = join(log, ahead, log * 6 / 80);
    load.name += "-turned";
    load.what += ", in two pieces";
    load.limits.events = log * 14 / 10;
    load
}

// Three in line go on while a fourth holds events that fit nowhere.
fn held(items: u64) -> Load {
    let mut f = Feed::new();
    let next = f.in_line(3, 40);
    f.subscribe(4);
    f.snapshots(4);
    for number in 0..items {
        f.event(4, STRANGE + number);
    }
    f.part(true);
    f.race(1, 3, next, next + 100);
    load(format!("held-{items}"), format!("3 in line, log of 400, a fourth holds {} events", number(items)), f)
}

// Ticks with nothing to do.
fn quiet_ticks(log: u64, keys: u64) -> Load {
    let mut f = Feed::new();
    let conns = printers(keys);
    f.in_line(conns, log / 10);
    for number in first_prints(keys) {
        deliver(&mut f, conns, number);
    }
    f.part(true);
    for _ in 0..200 {
        f.tick();
    }
    let what = format!("quiet tick: {conns} in line, log of {}, {} keys", number(log), number(keys));
    with_keys(load(format!("tick-{log}-{keys}"), what, f), keys)
}

// Ticks that each forget `gone` events of a log of ten seconds.
fn pruning_ticks(rate: u64, gone: u64) -> Load {
    let mut f = Feed::new();
    let mut next = f.in_line(4, rate);
    for _ in 0..5 {
        f.part(false);
        for number in next..next + gone {
            f.t += 1_000 * (number + 1 - next) / rate - 1_000 * (number - next) / rate;
            for conn in 1..=4 {
                f.event(conn, number);
            }
        }
        next += gone;
        f.part(true);
        f.tick();
    }
    let name = if gone == rate { format!("prune-{rate}") } else { format!("prune-{gone}-{}", 10 * rate) };
    load(name, format!("tick that forgets {} of {} events", number(gone), number(10 * rate + gone)), f)
}

fn storm_once(f: &mut Feed, conns: u64, next: &mut u64) {
    for conn in 1..=conns {
        f.subscribe(conn);
    }
    f.snapshots(1);
    f.race(1, 1, *next, *next + 4);
    *next += 4;
    for conn in 2..=conns {
        f.snapshots(conn);
        f.race(conn, conn, *next - 4, *next);
    }
}

// All subscribe again and line up again.
fn storm(conns: u64) -> Load {
    let mut f = Feed::new();
    let mut next = f.in_line(conns, 40);
    f.part(true);
    for _ in 0..20 {
        storm_once(&mut f, conns, &mut next);
    }
    load(format!("storm-{conns}"), format!("storm: {conns} subscribe again and line up"), f)
}

// The same with so many prints in use that all have delivered, and deliver again before the next storm.
fn storm_of_prints(conns: u64, keys: u64) -> Load {
    let mut f = Feed::new();
    let mut next = f.in_line(conns, 40);
    for _ in 0..3 {
        f.part(false);
        for number in first_prints(keys) {
            deliver(&mut f, conns, number);
        }
        f.part(true);
        storm_once(&mut f, conns, &mut next);
    }
    let what = format!("storm: {conns} subscribe again and line up, {} keys in use", number(keys));
    let mut load = load(format!("storm-{conns}-{keys}"), what, f);
    load.tested = if keys < 1_000 { 4_000 } else { 40 };
    load
}

// The oldest connection goes, and a new one joins.
fn replaced(conns: u64) -> Load {
    let mut f = Feed::new();
    let mut next = f.in_line(conns, 40);
    f.part(true);
    for first in 1..=40 {
        f.drop_conn(first);
        f.race(first + 1, first + conns - 1, next, next + 1);
        next += 1;
        f.join(first + conns, next);
    }
    load(format!("replace-{conns}"), format!("replaced: the oldest of {conns} goes, a new one joins"), f)
}

type Make = Box<dyn Fn() -> Load>;

// Every load, by its name.
pub fn all() -> Vec<(String, Make)> {
    let mut all: Vec<(String, Make)> = Vec::new();
    let mut add = |name: String, make: Make| all.push((name, make));
    for conns in [4, 16] {
        for rate in [40, 1_000, 10_000] {
            add(format!("steady-{conns}-{rate}"), Box::new(move || steady(conns, rate)));
        }
    }
    for keys in [10, 100, 1_000, 10_000, 65_536] {
        add(format!("prints-{keys}"), Box::new(move || prints(keys)));
        add(format!("copies-{keys}"), Box::new(move || copies(keys)));
    }
    for log in [100, 1_000, 10_000, 100_000] {
        add(format!("behind-{log}"), Box::new(move || join(log, false, 0)));
        add(format!("ahead-{log}"), Box::new(move || join(log, true, 0)));
    }
    for log in [1_000, 10_000] {
        add(format!("behind-{log}-turned"), Box::new(move || join_turned(log, false)));
        add(format!("ahead-{log}-turned"), Box::new(move || join_turned(log, true)));
    }
    for items in [10, 100, 1_000, 4_000] {
        add(format!("held-{items}"), Box::new(move || held(items)));
    }
    for (log, keys) in [(400, 10), (10_000, 10), (400, 1_000), (400, 65_536)] {
        add(format!("tick-{log}-{keys}"), Box::new(move || quiet_ticks(log, keys)));
    }
    for rate in [40, 1_000, 10_000] {
        add(format!("prune-{rate}"), Box::new(move || pruning_ticks(rate, rate)));
    }
    for rate in [1_000, 10_000] {
        add(format!("prune-40-{}", 10 * rate), Box::new(move || pruning_ticks(rate, 40)));
    }
    add("storm-16".into(), Box::new(|| storm(16)));
    for keys in [100, 4_000] {
        add(format!("storm-16-{keys}"), Box::new(move || storm_of_prints(16, keys)));
    }
    add("replace-16".into(), Box::new(|| replaced(16)));
    all
}
