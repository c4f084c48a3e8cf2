// speed: the tables. speed one LOAD SIDE: one load on one side, once, for the counting of instructions.
#[allow(dead_code)]
mod exported;
mod loads;
#[allow(dead_code)]
mod original;
#[allow(dead_code)]
#[path = "../oracle/random.rs"]
mod random;

use loads::{Load, Operation};
use std::hint::black_box;
use std::process::{Command, Stdio};
use std::time::Instant;

const SIDES: [&str; 3] = ["original", "owned", "tested"];
const RUNS: usize = 7;

trait Depth {
    fn empty() -> Self;
    fn operation(&mut self, o: &Operation) -> u64;
}

fn of_best(best: Option<(u32, u64)>) -> u64 {
    best.map_or(7, |(price, size)| size.wrapping_add(price as u64))
}

impl Depth for original::Depth {
    fn empty() -> Self {
        Self::default()
    }
    #[inline]
    fn operation(&mut self, o: &Operation) -> u64 {
        let bits = |best: Option<(u32, f64)>| of_best(best.map(|(price, size)| (price, size.to_bits())));
        match *o {
            Operation::Set(bid, price, size) => {
                self.set(bid, price, size);
                0
            }
            Operation::Trim(bid, ask) => {
                self.trim(bid, ask);
                0
            }
            Operation::Best => bits(self.best_bid()).wrapping_add(bits(self.best_ask())),
            Operation::Sums(floor, ceiling) => {
                self.bid_depth_from(floor).to_bits().wrapping_add(self.ask_depth_to(ceiling).to_bits())
            }
        }
    }
}

struct Owned(exported::Depth);

impl Depth for Owned {
    fn empty() -> Self {
        Owned(exported::Depth::empty())
    }
    #[inline]
    fn operation(&mut self, o: &Operation) -> u64 {
        let d = &mut self.0;
        match *o {
            Operation::Set(bid, price, size) => {
                d.side(bid).owned_set(bid, price, size).expect("a load that is not refused");
                0
            }
            Operation::Trim(bid, ask) => {
                d.bids.owned_trim(true, bid);
                d.asks.owned_trim(false, ask);
                0
            }
            Operation::Best => of_best(d.bids.best()).wrapping_add(of_best(d.asks.best())),
            Operation::Sums(floor, ceiling) => d.bids.owned_sum(true, floor).wrapping_add(d.asks.owned_sum(false, ceiling)),
        }
    }
}

impl Depth for exported::Depth {
    fn empty() -> Self {
        exported::Depth::empty()
    }
    #[inline]
    fn operation(&mut self, o: &Operation) -> u64 {
        const SOUND: &str = "a load that is not refused";
        match *o {
            Operation::Set(bid, price, size) => {
                self.set(bid, price, size).expect(SOUND);
                0
            }
            Operation::Trim(bid, ask) => {
                self.trim(bid, ask).expect(SOUND);
                0
            }
            Operation::Best => of_best(self.best(true).expect(SOUND)).wrapping_add(of_best(self.best(false).expect(SOUND))),
            Operation::Sums(floor, ceiling) => {
                self.sum(true, floor).expect(SOUND).wrapping_add(self.sum(false, ceiling).expect(SOUND))
            }
        }
    }
}

// The name is how the counting of instructions finds what to count.
#[inline(never)]
fn measured<D: Depth>(depth: &mut D, operations: &[Operation]) -> u64 {
    operations.iter().fold(0, |sum, o| sum.wrapping_add(black_box(depth.operation(o))))
}

// Nanoseconds an operation, and the sum of the answers.
fn run_on<D: Depth>(load: &Load) -> (f64, u64) {
    let mut depth = D::empty();
    for o in &load.before {
        depth.operation(o);
    }
    let start = Instant::now();
    let sum = measured(&mut depth, &load.operations);
    (start.elapsed().as_nanos() as f64 / load.operations.len() as f64, sum)
}

fn run(load: &Load, side: &str) -> (f64, u64) {
    match side {
        "original" => run_on::<original::Depth>(load),
        "owned" => run_on::<Owned>(load),
        "tested" => run_on::<exported::Depth>(load),
        _ => panic!("no side {side}"),
    }
}

// Instructions an operation, by callgrind.
fn instructions(load: &Load, side: &str) -> Option<f64> {
    let program = std::env::current_exe().ok()?;
    let out = program.with_file_name("callgrind.out");
    let ran = Command::new("valgrind")
        .args(["--tool=callgrind", "--toggle-collect=*measured*"])
        .arg(format!("--callgrind-out-file={}", out.display()))
        .arg(&program)
        .args(["one", &load.name, side])
        .stdout(Stdio::null())
        .stderr(Stdio::null())
        .status()
        .ok()?;
    if !ran.success() {
        return None;
    }
    let counts = std::fs::read_to_string(&out).ok()?;
    let total = counts.lines().find_map(|line| line.strip_prefix("summary: "))?;
    Some(total.trim().parse::<f64>().ok()? / load.operations.len() as f64)
}

fn row(what: &str, cells: &[Option<f64>], digits: usize) {
    let shown: Vec<String> = cells.iter().map(|x| x.map_or("–".into(), |x| format!("{x:.digits$}"))).collect();
    let ratio = |side: usize| match (cells[side], cells[0]) {
        (Some(a), Some(b)) => format!("{:.2}", a / b),
        _ => "–".into(),
    };
    println!("| {what} | {} | {} | {} |", shown.join(" | "), ratio(1), ratio(2));
}

fn table(measure: &str, digits: usize, rows: &[(String, Vec<Option<f64>>)]) {
    println!("\n| {measure} | original | owner's | tested | owner's ÷ original | tested ÷ original |\n|---|---|---|---|---|---|");
    rows.iter().for_each(|(what, cells)| row(what, cells, digits));
}

fn main() {
    let args: Vec<String> = std::env::args().skip(1).collect();
    let all = loads::all();
    if let [mode, name, side] = &args[..] {
        assert_eq!(mode, "one");
        let load = all.iter().find(|load| load.name == *name).expect("a load's name");
        println!("{}", run(load, side).1);
        return;
    }
    let (mut counts, mut times) = (Vec::new(), Vec::new());
    for load in &all {
        eprintln!("{}", load.name);
        let what = format!("{} (`{}`)", load.what, load.name);
        let ran = SIDES.map(|side| {
            let runs: Vec<(f64, u64)> = (0..RUNS).map(|_| run(load, side)).collect();
            assert!(runs.iter().all(|r| r.1 == runs[0].1), "two runs differ");
            (runs.iter().map(|r| r.0).fold(f64::INFINITY, f64::min), runs[0].1)
        });
        assert!(ran.iter().all(|r| r.1 == ran[0].1), "{}: the sides answer otherwise", load.name);
        times.push((what.clone(), ran.iter().map(|r| Some(r.0)).collect()));
        counts.push((what, SIDES.iter().map(|side| instructions(load, side)).collect()));
    }
    table("instructions an operation", 0, &counts);
    table("nanoseconds an operation", 1, &times);
}
