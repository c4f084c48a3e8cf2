// Lists for the replay program with what the original answers. A refusal comes from 01; all else of an answer from the original, but
// a record's kind and key are those of the call that brought its message, and its number counts on from the log's end.
use crate::calling::{Maker, Manner};
use crate::coverage::Seen;
use crate::exported::Lent;
use crate::lists::{keys_of, Setup, Step};
use crate::merge::MarketMerge;
use crate::original::{self, Put};
use crate::random::Random;
use crate::words::{Answer, Call, Key, Limits, Record};
use crate::{refusals, text};
use std::collections::HashMap;
use std::fs;
use std::process::exit;

const REPLAY: Setup =
    Setup { limits: Limits { l: 4, h: 32, g: 128, c: 32, d: 128 }, start: 0, from: None, more: 0, view: 0, salt: 0 };

type Keys = HashMap<u64, (u64, Key)>;

// Equal records of the original in a row are one with times.
fn records(puts: &[Put], keys: &Keys, number: &mut u64) -> Vec<Record> {
    let mut records = Vec::new();
    for same in puts.chunk_by(|a, e| a == e) {
        let (conn, message, snapshot) = same[0];
        let (kind, key) = keys[&message];
        assert_eq!(snapshot, kind == 0, "message {message}");
        let book = kind == 1;
        records.push(Record { conn, kind, number: if book { *number } else { 0 }, key, message, times: same.len() as u64 });
        *number += book as u64;
    }
    records
}

fn refused(number: u64) -> Answer {
    Answer { word: "refused", refused: number, records: Vec::new(), reports: Vec::new(), messages: Vec::new() }
}

// Makes a call on the original, if it is not refused.
fn answer(m: &mut MarketMerge, step: &Step, keys: &Keys, seen: &mut Seen) -> Answer {
    let before = original::reading(m);
    let view = if let Manner::Answer(a) = step.manner { a } else { 0 };
    let mut lent = Lent::new(Vec::new(), REPLAY.limits, 0);
    lent.answers = vec![view; before.lines.len()];
    let answer = match refusals::expected(Some(&before), REPLAY.limits, &step.call, &lent) {
        0 => {
            let o = original::call(m, &step.call, step.t, &|_| view == 1);
            let mut end = before.end();
            let mut all = records(&o.put, keys, &mut end);
            let mut reports = Vec::new();
            for (kind, conn, puts) in &o.reports {
                let put = records(puts, keys, &mut end);
                reports.push((*kind, *conn, put.len() as u64));
                all.extend(put);
            }
            Answer { word: o.word, refused: 0, records: all, reports, messages: Vec::new() }
        }
        number => refused(number),
    };
    seen.note(&step.call, &answer, &before, &original::reading(m));
    answer
}

// The lines that replay writes.
fn lines(answer: &Answer) -> String {
    let put = |r: &Record| {
        let kind = ["s", "b", "p"][r.kind as usize];
        format!("put {} {kind} {} {} {} {} {}\n", r.conn, r.number, r.key.0, r.key.1, r.message, r.times)
    };
    if answer.refused != 0 {
        return format!("refused {}\n", answer.refused);
    }
    let mut out = format!("{}\n", answer.word);
    let mut rest = &answer.records[..];
    for &(kind, conn, count) in &answer.reports {
        out += &format!("{} {conn}\n", ["aligned", "rebuild", "failed"][kind as usize]);
        let (now, later) = rest.split_at(count as usize);
        out.extend(now.iter().map(put));
        rest = later;
    }
    out.extend(rest.iter().map(put));
    out
}

// What replay writes for the list. On the original each call has a message of its own, which tells it from the others.
fn expected(steps: &[Step]) -> String {
    let mut own = steps.to_vec();
    let mut messages = Vec::new();
    for (i, step) in own.iter_mut().enumerate() {
        messages.push(step.call.message().map(|message| std::mem::replace(message, i as u64)));
    }
    let keys = keys_of(&REPLAY, &own);
    let mut m = original::start(&REPLAY);
    let mut out = String::new();
    for step in &own {
        let mut answer = answer(&mut m, step, &keys, &mut Seen::new());
        for r in &mut answer.records {
            r.message = messages[r.message as usize].expect("a call that brings a message");
        }
        out += &lines(&answer);
    }
    out
}

// The i-th list of a seed, and what it shows.
fn list(seed: u64, i: u64) -> (Vec<Step>, Seen) {
    let mut r = Random::part(seed, i);
    let length = r.between(40, 200);
    let mut maker = Maker::new(&mut r, REPLAY.limits);
    let mut m = original::start(&REPLAY);
    let (mut steps, mut seen) = (Vec::new(), Seen::new());
    for _ in 0..length {
        let mut call = maker.call(&original::reading(&m));
        if let Call::Subscribe { limit, .. } = &mut call {
            *limit = REPLAY.limits.h;
        }
        let tick = call == Call::Tick;
        let manner = if tick { Manner::Answer(maker.view_answer()) } else { Manner::Right };
        steps.push(Step { call, t: maker.clock(tick), manner });
        let keys = keys_of(&REPLAY, &steps);
        answer(&mut m, &steps[steps.len() - 1], &keys, &mut seen);
    }
    (steps, seen)
}

// Writes lists to the folder: of so many first each that shows most that the others do not, and then the next up to LEAST.
pub fn write(folder: &str, count: u64, seed: u64) {
    const LEAST: usize = 24;
    let mut left: Vec<(u64, Seen)> = (0..count).map(|i| (i, list(seed, i).1)).collect();
    let mut seen = Seen::new();
    let mut chosen = Vec::new();
    while let Some(best) = (0..left.len()).max_by_key(|&at| (seen.lacks(&left[at].1), usize::MAX - at)) {
        if seen.lacks(&left[best].1) == 0 && chosen.len() >= LEAST {
            break;
        }
        let (i, shown) = left.remove(best);
        seen.add(shown);
        chosen.push(i);
    }
    for (n, i) in chosen.iter().enumerate() {
        let steps = list(seed, *i).0;
        let calls: String = steps.iter().map(|step| text::line(step, true) + "\n").collect();
        let name = format!("{folder}/oracle-{:02}", n + 1);
        let head = format!("# Random calls: seed {seed}, list {i}. The answers are the original's.\n");
        fs::write(format!("{name}.calls"), head + &calls).expect("the folder can be written");
        fs::write(format!("{name}.expected"), expected(&steps)).expect("the folder can be written");
    }
    seen.table();
    println!("{} lists of {count}, seed {seed}", chosen.len());
}

// Compares the expected answers of the folder's lists with the original's.
pub fn check(folder: &str) {
    let mut failed = 0;
    let mut names: Vec<_> = fs::read_dir(folder).expect("the folder can be read").map(|e| e.expect("a file").path()).collect();
    names.retain(|name| name.extension().is_some_and(|e| e == "calls"));
    names.sort();
    for name in &names {
        let calls = fs::read_to_string(name).expect("a list can be read");
        let steps: Vec<Step> = calls.lines().filter_map(|line| text::parse(line, REPLAY.limits.h)).collect();
        let stored = fs::read_to_string(name.with_extension("expected")).expect("each list has its answers");
        if expected(&steps) != stored {
            failed += 1;
            println!("DIFFERENT: {}", name.display());
        }
    }
    println!("{} lists the same, {failed} different", names.len() - failed);
    exit((failed > 0) as i32);
}
