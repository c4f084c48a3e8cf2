//! What is read of a store and of its lists.
use super::{Store, Told};
use crate::limits::{RECORD, REPORT};
use crate::reading::{Kind, LineReading, Reading};
use crate::{codes, Limits, QUIET};

/// A put-out record, in the parts that a host is given.
pub struct Record {
    pub conn: u64,
    pub snapshot: bool,
    pub message: usize,
    pub times: u64,
}

/// A tick report: its kind, and how many records are its.
pub struct Report {
    pub kind: u64,
    pub conn: u64,
    pub records: usize,
}

/// Kinds of reports; any other is a line that failed.
pub const ALIGNED: u64 = 0;
pub const REBUILT: u64 = 1;

/// Kinds of lines. Those up to pending hold items.
const WAITING: u64 = 0;
const PENDING: u64 = 1;
const IN_LINE: u64 = 2;

fn quiet(since: u64, t: u64) -> bool {
    t.saturating_sub(since) >= QUIET.as_millis() as u64
}

impl Store {
    /// The words of the store, to be read by docs/LAYOUT.md.
    pub fn words(&self) -> &[u64] {
        &self.words
    }

    /// How many lines there are.
    pub fn lines(&self) -> usize {
        self.words[9] as usize
    }

    fn area(&self, line: usize) -> &[u64] {
        &self.words[self.areas + line * self.area..][..self.area]
    }

    /// How many items and how many prints a line holds.
    pub(crate) fn held(&self, line: usize) -> (usize, usize) {
        let area = self.area(line);
        let items = if area[1] <= PENDING { area[2] } else { 0 };
        (items as usize, area[9] as usize)
    }

    /// The messages of a line's items and of its prints.
    pub(crate) fn messages(&self, line: usize) -> (Vec<usize>, Vec<usize>) {
        let (items, prints) = self.held(line);
        let (item_area, print_area) =
            self.area(line)[32..].split_at(self.area - 32 - 3 * self.held_limit() as usize);
        let item = |i: usize| item_area[4 * i + 3] as usize;
        let print = |i: usize| print_area[3 * i + 2] as usize;
        (
            (0..items).map(item).collect(),
            (0..prints).map(print).collect(),
        )
    }

    /// The limits, the log's numbers, how full the tables are, and each line's kind, limit and next number, by docs/LAYOUT.md.
    pub fn reading(&self) -> Reading {
        let w = &self.words;
        Reading {
            limits: Limits {
                lines: w[0],
                held: w[1],
                events: w[2],
                keys: w[3],
                pairs: w[4],
            },
            base: w[5],
            end: w[5] + w[6],
            keys: w[10] + w[13],
            pairs: w[11] + w[14],
            lines: (0..self.lines())
                .map(|line| self.line_reading(line))
                .collect(),
        }
    }

    fn line_reading(&self, line: usize) -> LineReading {
        let area = self.area(line);
        let (items, prints) = self.held(line);
        let kind = match area[1] {
            WAITING => Kind::Waiting,
            PENDING => Kind::Pending,
            IN_LINE => Kind::InLine {
                next: area[6],
                due: [area[7] != 0, area[8] != 0],
            },
            _ => Kind::Failed,
        };
        LineReading {
            conn: area[0],
            kind,
            limit: area[10],
            items,
            prints,
        }
    }

    /// H: the largest limit of a line.
    pub(crate) fn held_limit(&self) -> u64 {
        self.words[1]
    }

    /// The records that the last call put out, seven words each (docs/LAYOUT.md, 'Output lists'); a refusal put out none. `told` is that
    /// call's answer: the next call may write over its records.
    pub fn record_words(&self, told: Told) -> &[[u64; RECORD]] {
        let count = match told.code {
            codes::REFUSED => 0,
            _ => told.count as usize,
        };
        let (records, _) = self.out.as_chunks::<RECORD>();
        // another store's answer may count more than there is room for
        &records[..count.min(records.len())]
    }

    /// The first `count` reports of the last tick, three words each (docs/LAYOUT.md, 'Output lists').
    pub fn report_words(&self, count: usize) -> &[[u64; REPORT]] {
        let (reports, _) = self.reports.as_chunks::<REPORT>();
        &reports[..count.min(reports.len())]
    }

    /// `count` records of the last call, after the first `from`.
    #[inline]
    pub(crate) fn records(
        &self,
        from: usize,
        count: usize,
    ) -> impl ExactSizeIterator<Item = Record> + '_ {
        let words = &self.out[RECORD * from..RECORD * (from + count)];
        words.chunks_exact(RECORD).map(|w| Record {
            conn: w[0],
            snapshot: w[1] == 0,
            message: w[5] as usize,
            times: w[6],
        })
    }

    /// A report of the last tick.
    pub(crate) fn report(&self, place: usize) -> Report {
        let words = &self.reports[REPORT * place..][..REPORT];
        Report {
            kind: words[0],
            conn: words[1],
            records: words[2] as usize,
        }
    }

    /// Whether a tick at `t` may ask a line's view: somebody is in line, nobody there is due a snapshot, and the market is quiet.
    /// What does not hold when a tick begins does not hold at a line's turn either.
    pub(super) fn asks_views(&self, t: u64) -> bool {
        let in_line = || {
            (0..self.lines())
                .map(|line| self.area(line))
                .filter(|area| area[1] == IN_LINE)
        };
        let applied = self.words[7] != 0;
        (!applied || quiet(self.words[8], t))
            && in_line().next().is_some()
            && in_line().all(|area| area[7] == 0 && area[8] == 0)
    }

    /// Whether such a tick may ask this line's view: it is pending, with a snapshot that is old enough.
    pub(super) fn asks_view(&self, line: usize, t: u64) -> bool {
        let area = self.area(line);
        area[1] == PENDING && area[4] != 0 && quiet(area[5], t)
    }
}
