//! A market by numbers: each call with its answer and the words of its records and reports, and what the store reads after it.
use pollendrift::{codes, EventKey, Kind, Limits, LineReading, Refusal, Store, Told};

const LIMITS: Limits = Limits {
    lines: 3,
    held: 4,
    events: 20,
    keys: 4,
    pairs: 8,
};

/// Where a store of these limits has its key table and its first line's area, by docs/LAYOUT.md.
const KEYS: usize = 64 + 3 * 20;
const AREA: usize = KEYS + 4 * 4 + 4 * 8;

const MAX: u64 = u64::MAX;

fn key(i: u64) -> EventKey {
    EventKey::new(i, i + 1)
}

fn snapshot(conn: u64, message: u64) -> [u64; 7] {
    [conn, 0, 0, 0, 0, message, 1]
}

fn in_line(next: u64) -> Kind {
    Kind::InLine {
        next,
        due: [false; 2],
    }
}

/// A market whose calls are checked.
struct Desk(Store);

impl Desk {
    fn new(start: u64) -> Desk {
        Desk(Store::new(LIMITS, start).expect("limits in range"))
    }

    /// A desk with connection 1 in line behind the book event 100, all at time 0.
    fn with_one() -> Desk {
        let mut desk = Desk::new(100);
        desk.subscribed(1, 0);
        for token in [0, 1] {
            let record = snapshot(1, 10 + token);
            desk.told(codes::APPLY, &[record], |s| {
                s.snapshot(1, token, 10 + token, 0)
            });
        }
        let record = [1, 1, 100, 7, 8, 12, 1];
        desk.told(codes::APPLY, &[record], |s| s.book_event(1, key(7), 12, 0));
        desk
    }

    /// A line is in line exactly where the queries say so.
    fn agrees(&self) {
        let lines = self.0.reading().lines;
        assert_eq!(lines.len(), self.0.lines());
        let is_in_line = |line: &LineReading| matches!(line.kind, Kind::InLine { .. });
        for line in &lines {
            assert_eq!(self.0.in_line(line.conn), is_in_line(line), "{line:?}");
        }
        assert_eq!(self.0.any_in_line(), lines.iter().any(is_in_line));
    }

    fn kinds(&self) -> Vec<Kind> {
        let lines = self.0.reading().lines;
        lines.iter().map(|line| line.kind).collect()
    }

    /// The call answers this code, with these records.
    fn told(&mut self, code: u64, records: &[[u64; 7]], call: impl FnOnce(&mut Store) -> Told) {
        let told = call(&mut self.0);
        let count = records.len() as u64;
        assert_eq!(told, Told { code, count });
        assert_eq!(self.0.record_words(told), records);
        self.agrees();
    }

    fn refused(&mut self, number: u64, call: impl FnOnce(&mut Store) -> Told) {
        let before = self.0.words().to_vec();
        let told = call(&mut self.0);
        let (code, count) = (codes::REFUSED, number);
        assert_eq!(told, Told { code, count });
        assert!(self.0.record_words(told).is_empty());
        assert_eq!(self.0.words(), before);
        self.agrees();
    }

    /// A tick has these reports and records.
    fn ticked(&mut self, answers: &[u64], t: u64, reports: &[[u64; 3]], records: &[[u64; 7]]) {
        let mut reported = 0;
        let tick = |s: &mut Store| {
            let (told, count) = s.tick(answers, t);
            reported = count;
            told
        };
        self.told(codes::DONE, records, tick);
        assert_eq!(self.0.report_words(reported), reports);
    }

    fn subscribed(&mut self, conn: u64, t: u64) {
        self.told(codes::DONE, &[], |s| s.subscribe(conn, LIMITS.held, t));
    }

    /// Both snapshots, which are held.
    fn pending(&mut self, conn: u64, t: u64) {
        for token in [0, 1] {
            self.told(codes::HELD, &[], |s| s.snapshot(conn, token, 30 + token, t));
        }
    }
}

#[test]
fn every_kind_of_line() {
    let mut desk = Desk::with_one();
    desk.told(codes::IGNORED, &[], |s| s.snapshot(1, 1, 13, 0));
    desk.told(codes::DONE, &[], |s| s.subscribe(2, 2, 0));
    assert_eq!(desk.kinds(), [in_line(101), Kind::Waiting]);
    desk.told(codes::HELD, &[], |s| s.print(2, key(9), 14, 0));
    let print = [1, 2, 0, 9, 10, 15, 1];
    desk.told(codes::APPLY, &[print], |s| s.print(1, key(9), 15, 0));
    desk.told(codes::HELD, &[], |s| s.book_event(2, key(7), 16, 0));
    desk.pending(2, 0);
    assert_eq!(desk.kinds(), [in_line(101), Kind::Pending]);
    desk.told(codes::FAILED, &[], |s| s.book_event(2, key(8), 17, 0));
    assert_eq!(desk.kinds(), [in_line(101), Kind::Failed]);
    desk.told(codes::IGNORED, &[], |s| s.print(2, key(9), 18, 0));
    desk.told(codes::KEPT, &[], |s| s.drop_conn(2, 0));
    assert!(!desk.0.in_line(2));
}

#[test]
fn reports_of_ticks() {
    let mut desk = Desk::with_one();
    desk.subscribed(2, 0);
    desk.told(codes::HELD, &[], |s| s.print(2, key(5), 20, 0));
    desk.pending(2, 0);
    for answers in [&[][..], &[0], &[0, 2], &[MAX, 0], &[0, 0, 0]] {
        desk.refused(11, |s| s.tick(answers, 1_000).0);
    }
    desk.ticked(&[0, 0], 1_000, &[], &[]);
    desk.ticked(&[0, 1], 1_000, &[[0, 2, 1]], &[[2, 2, 0, 5, 6, 20, 1]]);
    desk.told(codes::APPLY, &[[2, 1, 101, 1, 2, 21, 1]], |s| {
        s.book_event(2, key(1), 21, 1_000)
    });
    desk.told(codes::DUPLICATE, &[], |s| {
        s.book_event(1, key(1), 22, 1_000)
    });
    desk.told(codes::APPLY, &[[1, 1, 102, 2, 3, 23, 1]], |s| {
        s.book_event(1, key(2), 23, 1_000)
    });
    desk.told(codes::DIVERGED, &[], |s| s.book_event(2, key(3), 24, 1_000));
    desk.subscribed(3, 1_000);
    desk.ticked(&[0; 3], 11_000, &[[2, 3, 0]], &[]);
    assert_eq!(desk.kinds(), [in_line(103), in_line(102), Kind::Failed]);
    desk.subscribed(3, 11_000);
    desk.pending(3, 11_000);
    let records = [snapshot(3, 30), snapshot(3, 31)];
    // 2 is behind the log by then
    desk.ticked(&[0; 3], 21_000, &[[2, 2, 0], [1, 3, 2]], &records);
    assert_eq!(desk.kinds(), [Kind::Pending, Kind::Failed, in_line(103)]);
}

#[test]
fn book_lost() {
    let mut desk = Desk::with_one();
    desk.subscribed(2, 0);
    desk.told(codes::HELD, &[], |s| s.snapshot(2, 0, 40, 0));
    desk.told(codes::REBUILD, &[snapshot(2, 40)], |s| s.drop_conn(1, 0));
    let due = [false, true];
    assert_eq!(desk.kinds(), [Kind::InLine { next: 101, due }]);
    desk.told(codes::KEPT, &[], |s| s.promote(0));
    assert!(desk.0.servable());
    desk.told(codes::DONE, &[], |s| s.reset(0));
    assert_eq!(desk.kinds(), [Kind::Pending]);
    assert!(!desk.0.servable());
    desk.told(codes::GONE, &[], |s| s.promote(0));
}

#[test]
fn refusals() {
    let none = Limits { lines: 0, ..LIMITS };
    assert_eq!(Store::new(none, 0).err(), Some(Refusal::Limits));
    let mut desk = Desk::with_one();
    desk.subscribed(2, 0);
    desk.subscribed(3, 0);
    desk.refused(4, |s| s.subscribe(4, LIMITS.held, 0));
    for limit in [0, LIMITS.held + 1, MAX] {
        desk.refused(18, |s| s.subscribe(4, limit, 0));
    }
    desk.refused(10, |s| s.snapshot(1, 2, 50, 0));
}

/// Times are handed on as they are, the largest and smaller ones after it; so are connections, keys and messages.
#[test]
fn any_numbers() {
    let mut desk = Desk::new(MAX - 1);
    let key = EventKey::new(MAX, MAX);
    desk.subscribed(MAX, MAX);
    assert_eq!(desk.0.words()[AREA + 3], MAX);
    desk.told(codes::APPLY, &[snapshot(MAX, MAX)], |s| {
        s.snapshot(MAX, 0, MAX, MAX)
    });
    assert_eq!(desk.0.words()[7..9], [1, MAX]);
    let event = [MAX, 1, MAX - 1, MAX, MAX, MAX, 1];
    desk.told(codes::APPLY, &[event], |s| s.book_event(MAX, key, MAX, 5));
    assert_eq!(desk.0.words()[7..9], [1, 5]);
    desk.refused(9, |s| s.book_event(MAX, key, MAX, MAX));
    let print = [MAX, 2, 0, MAX, MAX, MAX, 1];
    desk.told(codes::APPLY, &[print], |s| s.print(MAX, key, MAX, MAX));
    desk.told(codes::APPLY, &[print], |s| s.print(MAX, key, MAX, 3));
    assert_eq!(desk.0.words()[KEYS..KEYS + 4], [MAX, MAX, 2, 3]);
    // at time 2 every stamp is later; at the largest every one is old
    desk.ticked(&[0], 2, &[], &[]);
    let reading = desk.0.reading();
    assert_eq!((reading.base, reading.end, reading.keys), (MAX - 1, MAX, 1));
    desk.ticked(&[0], MAX, &[], &[]);
    let reading = desk.0.reading();
    assert_eq!((reading.base, reading.end, reading.keys), (MAX, MAX, 0));
}
