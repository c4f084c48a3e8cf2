// Limits, calls and answers, as both sides have them.

pub type Key = (u64, u64);

// The layout of a store, in word 12 of its header.
pub const LAYOUT: u64 = 4;

#[derive(Clone, Copy, Debug, PartialEq)]
pub struct Limits {
    pub l: u64,
    pub h: u64,
    pub g: u64,
    pub c: u64,
    pub d: u64,
}

// The most of each limit.
pub const MOST: Limits = Limits { l: 16, h: 5_000, g: 1_048_576, c: 65_536, d: 65_536 };

impl Limits {
    pub fn of(w: &[u64]) -> Limits {
        Limits { l: w[0], h: w[1], g: w[2], c: w[3], d: w[4] }
    }
    pub fn all(self) -> [u64; 5] {
        [self.l, self.h, self.g, self.c, self.d]
    }
    pub fn in_range(self) -> bool {
        self.all().iter().zip(MOST.all()).all(|(&x, most)| 1 <= x && x <= most)
    }
    // The words of a store, of an output list and of a list of reports; all only for limits in range.
    pub fn store(self) -> usize {
        (64 + self.l * (7 * self.h + 64) + 3 * self.g + 4 * self.c + 4 * self.d) as usize
    }
    pub fn records(self) -> usize {
        7 * (self.l * (2 * self.h + 8) + 1) as usize
    }
    pub fn reports(self) -> usize {
        3 * self.l as usize
    }
    // How many items a line's area takes, and so the messages of a view.
    pub fn items(self) -> usize {
        self.h as usize + 8
    }
}

#[derive(Clone, Debug, PartialEq)]
pub enum Call {
    Setup { limits: Limits, start: u64 },
    Subscribe { conn: u64, limit: u64 },
    Snapshot { conn: u64, token: u64, message: u64 },
    Book { conn: u64, key: Key, message: u64 },
    Print { conn: u64, key: Key, message: u64 },
    Drop { conn: u64 },
    Promote,
    Reset,
    Tick,
    InLine { conn: u64 },
    AnyInLine,
    Servable,
    View { conn: u64 },
}

impl Call {
    pub fn name(&self) -> &'static str {
        match self {
            Call::Setup { .. } => "setup",
            Call::Subscribe { .. } => "subscribe",
            Call::Snapshot { .. } => "snapshot",
            Call::Book { .. } => "book",
            Call::Print { .. } => "print",
            Call::Drop { .. } => "drop",
            Call::Promote => "promote",
            Call::Reset => "reset",
            Call::Tick => "tick",
            Call::InLine { .. } => "in line",
            Call::AnyInLine => "any in line",
            Call::Servable => "servable",
            Call::View { .. } => "view",
        }
    }

    pub fn message(&mut self) -> Option<&mut u64> {
        match self {
            Call::Snapshot { message, .. } | Call::Book { message, .. } | Call::Print { message, .. } => Some(message),
            _ => None,
        }
    }
}

#[derive(Clone, Debug, PartialEq)]
pub struct Record {
    pub conn: u64,
    pub kind: u64,
    pub number: u64,
    pub key: Key,
    pub message: u64,
    pub times: u64,
}

// An answer: its word, the refusal's number if it is one, its records, its reports (kind, connection, count), a view's messages.
#[derive(Clone, Debug, PartialEq)]
pub struct Answer {
    pub word: &'static str,
    pub refused: u64,
    pub records: Vec<Record>,
    pub reports: Vec<(u64, u64, u64)>,
    pub messages: Vec<u64>,
}
