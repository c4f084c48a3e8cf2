// speed [LOAD...]: the tables. speed one LOAD SIDE: one load on one side, once, for the counting of instructions.
// Built with `--cfg memory` it counts allocated bytes, and `speed memory` is the table of memory.
mod batch;
mod calls;
mod drop_in;
mod feed;
mod keys;
mod loads;
#[cfg(memory)]
mod memory;
mod original;
mod shim;
mod single;
mod table;

mod hashed {
    use crate::shim;
    #[allow(dead_code)]
    pub mod merge;
}
mod ordered {
    use crate::shim;
    #[allow(dead_code)]
    pub mod merge;
}

use calls::{Side, Timed};
use loads::Load;
use std::time::{Duration, Instant};

pub const SIDES: [&str; 5] = ["shipped", "ordered", "single", "many", "drop-in"];

// What a load on a side did: measured calls, their time, and the sum of their answers.
pub struct Ran {
    pub calls: usize,
    pub time: Duration,
    pub sum: u64,
}

// The name is how the counting of instructions finds what to count.
#[inline(never)]
fn measured<S: Side>(side: &mut S, calls: &[Timed]) -> u64 {
    side.calls(calls)
}

fn run_on<S: Side>(load: &Load, most: usize) -> Ran {
    let mut side = S::new(load.limits);
    let mut ran = Ran { calls: 0, time: Duration::ZERO, sum: 0 };
    for part in &load.parts {
        if !part.measured {
            part.calls.iter().for_each(|call| {
                side.prepare(call);
            });
            continue;
        }
        let calls = &part.calls[..part.calls.len().min(most - ran.calls)];
        let start = Instant::now();
        ran.sum = ran.sum.wrapping_add(measured(&mut side, calls));
        ran.time += start.elapsed();
        ran.calls += calls.len();
    }
    ran
}

// At most so many calls are measured.
pub fn run_most(load: &Load, side: &str, most: usize) -> Ran {
    match side {
        "shipped" => run_on::<original::hashed::Hashed>(load, most),
        "ordered" => run_on::<original::ordered::Ordered>(load, most),
        "single" => run_on::<single::Single>(load, most),
        "many" => run_on::<batch::Batch>(load, most),
        "drop-in" => run_on::<drop_in::DropIn>(load, most),
        _ => panic!("no side {side}"),
    }
}

pub fn run(load: &Load, side: &str) -> Ran {
    run_most(load, side, if side == "single" { load.tested } else { usize::MAX })
}

pub fn run_key(length: usize, proved: bool) -> Ran {
    let start = Instant::now();
    let (calls, sum) = keys::run(length, proved);
    Ran { calls, time: start.elapsed(), sum }
}

fn one(name: &str, side: &str) -> Ran {
    if let Some(length) = name.strip_prefix("key-") {
        return run_key(length.parse().expect("a length"), side != "shipped");
    }
    let all = loads::all();
    let (_, make) = all.iter().find(|(n, _)| n == name).expect("a load's name");
    run(&make(), side)
}

fn main() {
    let args: Vec<String> = std::env::args().skip(1).collect();
    match &args[..] {
        [mode, name, side] if mode == "one" => {
            let ran = one(name, side);
            println!("{} {}", ran.calls, ran.sum);
        }
        #[cfg(memory)]
        [mode] if mode == "memory" => memory::print(),
        names => table::print(names),
    }
}
