// A list of calls in the making: connections, their events and prints, and the clock.
use crate::calls::{Call, Key, Timed};
use std::time::{Duration, Instant};

pub struct Part {
    pub measured: bool,
    pub calls: Vec<Timed>,
}

// The next of a row of numbers that look random.
fn mixed(x: u64) -> u64 {
    let mut z = x.wrapping_add(0x9E37_79B9_7F4A_7C15);
    z = (z ^ (z >> 30)).wrapping_mul(0xBF58_476D_1CE4_E5B9);
    z = (z ^ (z >> 27)).wrapping_mul(0x94D0_49BB_1331_11EB);
    z ^ (z >> 31)
}

// The key of a message.
fn key(number: u64) -> Key {
    (mixed(number), mixed(number ^ (1 << 60)))
}

// The key of a print.
pub fn print_key(number: u64) -> Key {
    key(PRINTS + number)
}

// Numbers of prints and of events that no other connection has start here, far from those of events.
const PRINTS: u64 = 1 << 20;
pub const STRANGE: u64 = 1 << 21;

pub struct Feed {
    zero: Instant,
    pub t: u64,
    random: u64,
    pub parts: Vec<Part>,
}

impl Feed {
    pub fn new() -> Feed {
        Feed { zero: Instant::now(), t: 0, random: 1, parts: vec![Part { measured: false, calls: Vec::new() }] }
    }

    pub fn part(&mut self, measured: bool) {
        self.parts.push(Part { measured, calls: Vec::new() });
    }

    fn add(&mut self, conn: u64, message: u64, call: Call) {
        let at = self.zero + Duration::from_millis(self.t);
        let timed = Timed { call, conn, message, t: self.t, at };
        self.parts.last_mut().expect("a part").calls.push(timed);
    }

    pub fn subscribe(&mut self, conn: u64) {
        self.add(conn, 0, Call::Subscribe);
    }

    pub fn snapshots(&mut self, conn: u64) {
        self.add(conn, 1, Call::Snapshot(0));
        self.add(conn, 2, Call::Snapshot(1));
    }

    pub fn event(&mut self, conn: u64, number: u64) {
        self.add(conn, number, Call::Book(key(number)));
    }

    pub fn print(&mut self, conn: u64, number: u64) {
        self.add(conn, number, Call::Print(print_key(number)));
    }

    pub fn drop_conn(&mut self, conn: u64) {
        self.add(conn, 0, Call::Drop);
    }

    pub fn tick(&mut self) {
        self.add(0, 0, Call::Tick);
    }

    pub fn below(&mut self, n: u64) -> u64 {
        self.random = mixed(self.random);
        self.random % n
    }

    // Connections 1 to `conns` in line over a log of ten seconds at `rate` events a second. Answers the next event's number.
    pub fn in_line(&mut self, conns: u64, rate: u64) -> u64 {
        let end = 10 * rate.max(1);
        self.subscribe(1);
        self.snapshots(1);
        for number in 0..end {
            self.t = number * 10_000 / end;
            self.event(1, number);
        }
        for conn in 2..=conns {
            self.join(conn, end);
        }
        end
    }

    // A connection comes level with a log that ends at `end`.
    pub fn join(&mut self, conn: u64, end: u64) {
        self.subscribe(conn);
        self.snapshots(conn);
        for number in end - 4..end {
            self.event(conn, number);
        }
    }

    // The connections from `first` to `last` deliver the events from `from` to `to`, now one ahead, now another, by up to eight.
    pub fn race(&mut self, first: u64, last: u64, from: u64, to: u64) {
        let mut next: Vec<u64> = vec![from; (last - first + 1) as usize];
        while let Some(&slowest) = next.iter().min().filter(|&&n| n < to) {
            let mut i = self.below(next.len() as u64) as usize;
            if next[i] == to || next[i] >= slowest + 8 {
                i = next.iter().position(|&n| n == slowest).expect("the slowest");
            }
            self.event(first + i as u64, next[i]);
            next[i] += 1;
        }
    }
}
