//! Connections that deliver at random, stall, close and come again, in markets with tight limits.
use crate::book::Message;
use crate::venue::Delivered;
use crate::Run;
use pollendrift::{ConnId, Limits};
use std::collections::BTreeSet;
use std::time::{Duration, Instant};

const LIMITS: Limits = Limits {
    lines: 3,
    held: 12,
    events: 32,
    keys: 24,
    pairs: 60,
};

struct Mixed {
    run: Run,
    conns: [ConnId; 3],
    random: u64,
    ticked: Instant,
    /// Prints that some connection delivered in line without a refusal.
    taken: BTreeSet<u64>,
}

impl Mixed {
    fn new(limits: Limits, seed: u64) -> Mixed {
        let run = Run::new(limits, 0, &[]);
        let mut mixed = Mixed {
            conns: [1, 2, 3],
            random: seed,
            ticked: run.now,
            taken: BTreeSet::new(),
            run,
        };
        for conn in mixed.conns {
            mixed.subscribe(conn);
        }
        mixed
    }

    /// Marsaglia's xorshift64.
    fn below(&mut self, n: u64) -> u64 {
        self.random ^= self.random << 13;
        self.random ^= self.random >> 7;
        self.random ^= self.random << 17;
        self.random % n
    }

    fn subscribe(&mut self, conn: ConnId) {
        let (behind, apart) = (self.below(8) as usize, self.below(4) as usize);
        self.run.venue.subscribe(conn, behind, apart);
    }

    fn deliver(&mut self, conn: ConnId) -> bool {
        let Run { host, venue, now } = &mut self.run;
        let (in_line, logged) = (host.in_line(conn), host.log.len());
        let delivered = venue.deliver(conn, host, *now);
        if let Some(Delivered::Message(Message::Print { id })) = delivered {
            if in_line && host.in_line(conn) && host.log.len() == logged {
                self.taken.insert(id);
            }
        }
        delivered.is_some()
    }

    /// Time passes, with a tick each second.
    fn pass(&mut self, millis: u64) {
        self.run.now += Duration::from_millis(millis);
        if self.run.now - self.ticked >= Duration::from_secs(1) {
            self.ticked = self.run.now;
            let asked = self.run.host.tick(self.run.now);
            asked.into_iter().for_each(|conn| self.subscribe(conn));
        }
    }

    /// Something happens: an event, a print with an id of its own, a delivery, or a connection
    /// closes and another one comes.
    fn step(&mut self, stalled: usize) {
        let i = self.below(3) as usize;
        match self.below(400) {
            0..=139 => {
                let token = self.below(2) as usize;
                self.run.venue.event(token);
            }
            140..=155 => {
                let id = self.run.venue.volume().len() as u64;
                self.run.venue.print(id);
            }
            156..=397 if i == stalled => {}
            156..=397 => {
                self.deliver(self.conns[i]);
            }
            _ => {
                self.run.close(self.conns[i]);
                self.conns[i] = self.conns.iter().max().expect("three") + 1;
                self.subscribe(self.conns[i]);
            }
        }
    }

    fn in_line(&self) -> usize {
        let conns = self.conns.iter();
        conns.filter(|conn| self.run.host.in_line(**conn)).count()
    }

    /// The venue is quiet and the connections catch up: with one in line the book is right.
    fn catch_up(&mut self) {
        for conn in self.conns {
            while self.deliver(conn) {}
        }
        if self.in_line() > 0 {
            self.run.check_book();
        }
    }

    /// Busy for up to a quarter of a minute, then quiet for a second.
    fn round(&mut self) {
        // from 3 on, no connection is stalled
        let (stalled, pace) = (self.below(6) as usize, 50 << self.below(3));
        for _ in 0..120 {
            self.step(stalled);
            let millis = self.below(pace);
            self.pass(millis);
        }
        self.catch_up();
        self.pass(1_000);
        self.catch_up();
        assert!(self.in_line() > 0);
        assert_eq!(self.run.host.book.gaps, 0);
    }

    /// A print that a connection in line delivered counts once, any other at most once.
    fn check_prints(&self) {
        for id in self.run.venue.volume().keys() {
            let counted = self.run.host.volume.get(id).copied().unwrap_or(0);
            let least = self.taken.contains(id) as u64;
            assert!((least..=1).contains(&counted), "print {id}: {counted}");
        }
    }
}

fn run(limits: Limits, seed: u64) -> Mixed {
    let mut mixed = Mixed::new(limits, seed);
    (0..50).for_each(|_| mixed.round());
    // ten seconds until the log has room for snapshots, and two to line up
    for _ in 0..12 {
        mixed.pass(1_000);
        mixed.catch_up();
    }
    assert_eq!(mixed.in_line() as u64, limits.lines.min(3));
    mixed.check_prints();
    mixed
}

#[test]
fn random_calls() {
    let lines = Limits { lines: 2, ..LIMITS };
    let mut events = LIMITS;
    events.events = 16;
    let (mut log, mut printed, mut taken) = (Vec::new(), 0, 0);
    for (limits, seed) in [(LIMITS, 1), (LIMITS, 2), (lines, 3), (events, 4)] {
        let mixed = run(limits, seed);
        printed += mixed.run.venue.volume().len();
        taken += mixed.taken.len();
        log.extend(mixed.run.host.log);
    }
    // the refusals were met, and most prints came on a connection in line
    for (text, least) in [("refused 4", 5), ("refused 5", 400), ("refused 7", 100)] {
        let met = log.iter().filter(|line| line.contains(text)).count();
        assert!(met >= least, "{text}: {met}");
    }
    assert!(2 * taken > printed, "{taken} of {printed}");
}
