// The tables: instructions and nanoseconds a call.
use crate::{keys, loads, run, run_key, run_most, Ran, SIDES};
use std::process::{Command, Stdio};

const RUNS: usize = 5;

// Instructions a call, by callgrind, of one load on one side.
fn instructions(name: &str, side: &str) -> Option<f64> {
    let program = std::env::current_exe().ok()?;
    let out = program.with_file_name("callgrind.out");
    let told = Command::new("valgrind")
        .args(["--tool=callgrind", "--toggle-collect=*measured*"])
        .arg(format!("--callgrind-out-file={}", out.display()))
        .arg(&program)
        .args(["one", name, side])
        .stderr(Stdio::null())
        .output()
        .ok()?;
    let text = String::from_utf8(told.stdout).ok()?;
    let calls: f64 = text.split(' ').next()?.parse().ok()?;
    let counts = std::fs::read_to_string(&out).ok()?;
    let total = counts.lines().find_map(|line| line.strip_prefix("summary: "))?;
    Some(total.trim().parse::<f64>().ok()? / calls)
}

// The best of some runs; a slow load has fewer.
fn best(mut once: impl FnMut() -> Ran) -> Ran {
    let mut best = once();
    let start = std::time::Instant::now();
    for _ in 1..RUNS {
        if start.elapsed().as_secs() > 1 {
            break;
        }
        let ran = once();
        assert_eq!(ran.sum, best.sum, "two runs differ");
        if ran.time < best.time {
            best = ran;
        }
    }
    best
}

struct Row {
    what: String,
    // instructions and nanoseconds a call, for each side
    counts: Vec<Option<f64>>,
    times: Vec<f64>,
}

fn per_call(ran: &Ran) -> f64 {
    ran.time.as_nanos() as f64 / ran.calls as f64
}

fn row(name: &str, load: &loads::Load) -> Row {
    let ran: Vec<Ran> = SIDES.iter().map(|side| best(|| run(load, side))).collect();
    for (ran_by, side) in ran.iter().zip(SIDES) {
        let same = run_most(load, "shipped", ran_by.calls);
        assert_eq!(ran_by.sum, same.sum, "{name}: {side} answers otherwise");
    }
    Row {
        what: format!("{} (`{name}`)", load.what),
        counts: SIDES.iter().map(|side| instructions(name, side)).collect(),
        times: ran.iter().map(per_call).collect(),
    }
}

fn key_row(length: usize) -> Row {
    let name = format!("key-{length}");
    let ran = [false, true].map(|proved| best(|| run_key(length, proved)));
    assert_eq!(ran[0].sum, ran[1].sum, "{name}: the keys differ");
    let [hashers, proved] = ["shipped", "drop-in"].map(|side| instructions(&name, side));
    Row {
        what: format!("key of {} bytes (`{name}`)", number(length as u64)),
        counts: vec![hashers, hashers, proved, proved, proved],
        times: [0, 0, 1, 1, 1].map(|i: usize| per_call(&ran[i])).to_vec(),
    }
}

pub fn number(x: u64) -> String {
    let whole = x.to_string();
    let mut text = String::new();
    for (i, digit) in whole.chars().enumerate() {
        if i > 0 && (whole.len() - i) % 3 == 0 {
            text.push(',');
        }
        text.push(digit);
    }
    text
}

fn cell(x: Option<f64>) -> String {
    x.map_or("–".into(), |x| number(x.round() as u64))
}

fn line(what: &str, by_side: &[Option<f64>]) {
    let ratio = |side: usize| match (by_side[side], by_side[0]) {
        (Some(a), Some(b)) => format!("{:.2}", a / b),
        _ => "–".into(),
    };
    let cells: Vec<String> = by_side.iter().copied().map(cell).collect();
    println!("| {what} | {} | {} | {} | {} |", cells.join(" | "), ratio(2), ratio(3), ratio(4));
}

fn heading(measure: &str) {
    let sides = "shipped | ordered | single calls | many at once | drop-in";
    println!("\n| {measure} | {sides} | single ÷ shipped | many ÷ shipped | drop-in ÷ shipped |");
    println!("|---|---|---|---|---|---|---|---|---|");
}

pub fn print(names: &[String]) {
    let chosen = |name: &str| names.is_empty() || names.iter().any(|n| n == name);
    let mut rows = Vec::new();
    for (name, make) in loads::all().iter().filter(|(name, _)| chosen(name)) {
        eprintln!("{name}");
        rows.push(row(name, &make()));
    }
    for length in keys::LENGTHS.into_iter().filter(|n| chosen(&format!("key-{n}"))) {
        rows.push(key_row(length));
    }
    heading("instructions a call");
    rows.iter().for_each(|row| line(&row.what, &row.counts));
    heading("nanoseconds a call");
    for row in &rows {
        let times: Vec<Option<f64>> = row.times.iter().copied().map(Some).collect();
        line(&row.what, &times);
    }
}
