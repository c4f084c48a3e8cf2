//! Random call lists: connections that deliver one stream of the venue, each at its own place, with faults in between.

/// xorshift64*
pub struct Random(u64);

impl Random {
    pub fn new(seed: u64) -> Random {
        let mut random = Random((seed ^ 0x9E37_79B9_7F4A_7C15).max(1));
        for _ in 0..8 {
            random.next();
        }
        random
    }

    pub fn next(&mut self) -> u64 {
        self.0 ^= self.0 >> 12;
        self.0 ^= self.0 << 25;
        self.0 ^= self.0 >> 27;
        self.0.wrapping_mul(0x2545_F491_4F6C_DD1D)
    }

    fn below(&mut self, n: u64) -> u64 {
        (self.next() >> 11) % n
    }

    pub fn between(&mut self, from: u64, to: u64) -> u64 {
        from + self.below(to - from + 1)
    }

    fn percent(&mut self, chance: u64) -> bool {
        self.below(100) < chance
    }

    fn of<T: Copy>(&mut self, all: &[T]) -> T {
        all[self.below(all.len() as u64) as usize]
    }
}

pub type Key = (u64, u64);

#[derive(Clone, Copy, Debug)]
pub enum Call {
    /// With a limit of the line's own, where there is one.
    Subscribe(u64, Option<u64>),
    Snapshot(u64, usize),
    Book(u64, Key),
    Other(u64, Key),
    Drop(u64),
    Promote,
    Reset,
    Tick,
}

/// A call and its time. Its message is its place in the list.
pub type Timed = (Call, u64);

/// What a list starts from. `view` chooses how `same_view` answers.
#[derive(Clone, Copy, Debug)]
pub struct Setup {
    pub limits: pollendrift::Limits,
    pub start: u64,
    view: u64,
}

impl Setup {
    pub fn same_view(&self, messages: &[&u64]) -> bool {
        let mix = |x: u64, m: &&u64| {
            (x ^ **m)
                .wrapping_mul(0x9E37_79B9_7F4A_7C15)
                .rotate_left(23)
        };
        match self.view {
            0 => false,
            1 | 2 => true,
            salt => messages.iter().fold(salt, mix) % 2 == 0,
        }
    }
}

/// Limits that are met often by some lists, and never by most.
pub fn setup(r: &mut Random) -> Setup {
    let tight = r.percent(15);
    Setup {
        limits: pollendrift::Limits {
            lines: r.between(1, 5),
            held: if r.percent(50) { r.between(1, 9) } else { 40 },
            events: if tight { r.between(4, 30) } else { 2_000 },
            keys: if tight { r.between(1, 3) } else { 10 },
            pairs: if tight { r.between(1, 5) } else { 60 },
        },
        start: match r.below(10) {
            0 => u64::MAX - r.below(60),
            1 => r.next() >> 1,
            _ => 0,
        },
        view: r.below(6),
    }
}

/// A connection as the list maker knows it.
struct Conn {
    number: u64,
    /// Its place in the stream.
    at: usize,
    subscribed: bool,
    /// Whether its snapshots of the two tokens came.
    came: [bool; 2],
}

/// Makes the calls of a list one by one.
pub struct Maker<'a> {
    r: &'a mut Random,
    keys: Vec<Key>,
    stream: Vec<Key>,
    conns: Vec<Conn>,
    /// The only token of the list, where it has one.
    token: Option<usize>,
    /// How many of a hundred calls, about, are book events.
    busy: u64,
    /// The held limit of the market.
    held: u64,
    now: u64,
}

const SHORT: [u64; 7] = [1, 500, 999, 1_000, 1_000, 1_001, 1_500];
const LONG: [u64; 6] = [9_000, 9_999, 10_000, 10_001, 30_000, 30_001];

impl Maker<'_> {
    pub fn new<'a>(r: &'a mut Random, setup: &Setup) -> Maker<'a> {
        let keys: Vec<Key> = (0..r.between(2, 9))
            .map(|i| (7 + i / 2, 9 + i % 2))
            .collect();
        let period = if r.percent(20) { r.between(1, 6) } else { 300 };
        let stream = (0..period).map(|_| r.of(&keys)).collect();
        let more = r.below(2);
        let conn = |i| Conn {
            number: if more == 0 { i } else { u64::MAX - 3 * i },
            at: 0,
            subscribed: false,
            came: [false; 2],
        };
        let conns = (0..setup.limits.lines + more).map(conn).collect();
        let token = if r.percent(8) {
            Some(r.below(2) as usize)
        } else {
            None
        };
        let busy = if token.is_some() {
            r.between(1, 20)
        } else {
            r.between(20, 90)
        };
        let now = r.between(0, 40_000);
        Maker {
            r,
            keys,
            stream,
            conns,
            token,
            busy,
            held: setup.limits.held,
            now,
        }
    }

    /// The connection failed or has no line: it has to subscribe again.
    pub fn failed(&mut self, number: u64) {
        self.conns
            .iter_mut()
            .filter(|conn| conn.number == number)
            .for_each(|conn| conn.subscribed = false);
    }

    /// The next call and its time.
    pub fn call(&mut self) -> Timed {
        let call = self.next();
        let tick = matches!(call, Call::Tick);
        let step = match self.r.below(100) {
            0 => {
                self.now = self.now.saturating_sub(self.r.of(&LONG));
                0
            }
            1 => self.r.of(&LONG),
            2..=20 => 1,
            21..=30 if tick => self.r.of(&LONG[..4]),
            _ if tick => self.r.of(&SHORT),
            _ => 0,
        };
        self.now += step;
        (call, self.now)
    }

    fn next(&mut self) -> Call {
        let subscribed = self.conns.iter().filter(|conn| conn.subscribed).count();
        if subscribed == 0 || self.r.percent(if subscribed < 3 { 8 } else { 2 }) {
            return self.subscribe();
        }
        if self.r.percent(self.busy) {
            return self.book();
        }
        match self.r.below(60) {
            0..=24 => self.snapshot(),
            25..=39 => {
                let i = self.conn(true);
                Call::Other(self.conns[i].number, self.r.of(&self.keys))
            }
            40..=55 => Call::Tick,
            56 | 57 => self.drop(),
            58 => Call::Promote,
            _ => Call::Reset,
        }
    }

    /// A connection that is subscribed or not, as wanted, but for a few.
    fn conn(&mut self, subscribed: bool) -> usize {
        let all = 0..self.conns.len();
        let fit: Vec<usize> = all
            .filter(|&i| self.conns[i].subscribed == subscribed)
            .collect();
        if fit.is_empty() || self.r.percent(3) {
            return self.r.below(self.conns.len() as u64) as usize;
        }
        self.r.of(&fit)
    }

    /// A new subscription begins near where the others are.
    fn subscribe(&mut self) -> Call {
        let i = self.conn(false);
        let farthest = self.conns.iter().map(|conn| conn.at).max().unwrap_or(0);
        let back = self.r.below(7) as usize;
        let limit = self.limit();
        let conn = &mut self.conns[i];
        conn.at = (farthest + 2).saturating_sub(back);
        conn.subscribed = true;
        conn.came = [false; 2];
        Call::Subscribe(conn.number, limit)
    }

    /// None, for the market's; or the line's own, short more often than not, and now and then one that is refused.
    fn limit(&mut self) -> Option<u64> {
        match self.r.below(20) {
            0..=7 => None,
            8 => Some(self.r.of(&[0, self.held + 1, u64::MAX])),
            9..=14 => Some(self.r.between(1, self.held.min(8))),
            _ => Some(self.r.between(1, self.held)),
        }
    }

    /// Mostly one that did not come yet.
    fn snapshot(&mut self) -> Call {
        let all = 0..self.conns.len();
        let lacks = |conn: &Conn| conn.subscribed && conn.came != [true; 2];
        let fit: Vec<usize> = all.filter(|&i| lacks(&self.conns[i])).collect();
        let i = if fit.is_empty() || self.r.percent(10) {
            self.conn(true)
        } else {
            self.r.of(&fit)
        };
        let token = match self.token {
            Some(token) => token,
            None if self.r.percent(1) => 2,
            None if self.r.percent(80) => self.conns[i].came[0] as usize,
            None => self.r.below(2) as usize,
        };
        if token < 2 && self.token.is_none() {
            self.conns[i].came[token] = true;
        }
        Call::Snapshot(self.conns[i].number, token)
    }

    fn book(&mut self) -> Call {
        let i = self.conn(true);
        let fault = self.r.percent(1);
        let conn = &mut self.conns[i];
        if fault {
            return Call::Book(conn.number, self.r.of(&self.keys));
        }
        conn.at += 1;
        Call::Book(conn.number, self.stream[(conn.at - 1) % self.stream.len()])
    }

    fn drop(&mut self) -> Call {
        let i = self.conn(true);
        self.conns[i].subscribed = false;
        Call::Drop(self.conns[i].number)
    }
}
