// The exported calls on a store of the host's, which test it at every call. What is not measured is done by the calls that do not.
use crate::calls::{self, Call, Side, Timed};
use pollendrift::Limits;

type Subscribe = unsafe extern "C" fn(*mut u64, usize, u64, u64, u64, &mut u64) -> u64;
type Snapshot = unsafe extern "C" fn(*mut u64, usize, *mut u64, usize, u64, u64, u64, u64, &mut u64) -> u64;
type Keyed = unsafe extern "C" fn(*mut u64, usize, *mut u64, usize, u64, u64, u64, u64, u64, &mut u64) -> u64;
type Drop = unsafe extern "C" fn(*mut u64, usize, *mut u64, usize, u64, u64, &mut u64) -> u64;
#[rustfmt::skip]
type Tick = unsafe extern "C" fn(
    *mut u64, usize, *mut u64, usize, *mut u64, usize, *const u64, usize, u64, &mut u64, &mut u64) -> u64;

struct Calls {
    subscribe: Subscribe,
    snapshot: Snapshot,
    book_event: Keyed,
    print: Keyed,
    drop: Drop,
    tick: Tick,
}

#[rustfmt::skip]
macro_rules! declare {
    ($all:ident, $subscribe:ident, $snapshot:ident, $book_event:ident, $print:ident, $drop:ident, $tick:ident) => {
        extern "C" {
            fn $subscribe(s: *mut u64, n: usize, conn: u64, limit: u64, t: u64, count: &mut u64) -> u64;
            fn $snapshot(s: *mut u64, n: usize, out: *mut u64, m: usize, conn: u64, token: u64, message: u64, t: u64,
                count: &mut u64) -> u64;
            fn $book_event(s: *mut u64, n: usize, out: *mut u64, m: usize, conn: u64, k0: u64, k1: u64, message: u64, t: u64,
                count: &mut u64) -> u64;
            fn $print(s: *mut u64, n: usize, out: *mut u64, m: usize, conn: u64, k0: u64, k1: u64, message: u64, t: u64,
                count: &mut u64) -> u64;
            fn $drop(s: *mut u64, n: usize, out: *mut u64, m: usize, conn: u64, t: u64, count: &mut u64) -> u64;
            fn $tick(s: *mut u64, n: usize, out: *mut u64, m: usize, reports: *mut u64, k: usize, views: *const u64, a: usize,
                t: u64, count: &mut u64, reported: &mut u64) -> u64;
        }
        const $all: Calls = Calls {
            subscribe: $subscribe, snapshot: $snapshot, book_event: $book_event, print: $print, drop: $drop, tick: $tick,
        };
    };
}

declare!(MERGE, merge_subscribe, merge_snapshot, merge_book_event, merge_print, merge_drop, merge_tick);
declare!(OWNED, owned_subscribe, owned_snapshot, owned_book_event, owned_print, owned_drop, owned_tick);

extern "C" {
    #[rustfmt::skip]
    fn merge_setup(s: *mut u64, n: usize, lines: u64, held: u64, events: u64, keys: u64, pairs: u64, start: u64,
        count: &mut u64) -> u64;
}

// No line enters by its view in any load.
const VIEWS: [u64; 16] = [0; 16];

pub struct Single {
    pub words: Vec<u64>,
    pub out: Vec<u64>,
    pub reports: Vec<u64>,
}

impl Single {
    #[inline]
    fn call_by(&mut self, by: &Calls, c: &Timed) -> u64 {
        let (s, n) = (self.words.as_mut_ptr(), self.words.len());
        let (out, m) = (self.out.as_mut_ptr(), self.out.len());
        let lines = self.words[9] as usize;
        let (mut count, mut reported) = (0, 0);
        // SAFETY: setup made the words, which only these calls write; the lists and counts are apart.
        let code = unsafe {
            match c.call {
                Call::Book(key) => (by.book_event)(s, n, out, m, c.conn, key.0, key.1, c.message, c.t, &mut count),
                Call::Print(key) => (by.print)(s, n, out, m, c.conn, key.0, key.1, c.message, c.t, &mut count),
                Call::Snapshot(token) => (by.snapshot)(s, n, out, m, c.conn, token as u64, c.message, c.t, &mut count),
                Call::Tick => {
                    let (list, k) = (self.reports.as_mut_ptr(), self.reports.len());
                    (by.tick)(s, n, out, m, list, k, VIEWS.as_ptr(), lines, c.t, &mut count, &mut reported)
                }
                Call::Drop => (by.drop)(s, n, out, m, c.conn, c.t, &mut count),
                // every line's limit is the held limit
                Call::Subscribe => (by.subscribe)(s, n, c.conn, self.words[1], c.t, &mut count),
            }
        };
        answered(code, count) + self.put_out(count as usize, reported as usize)
    }

    // Bytes of the store that say something, and of the whole store.
    #[cfg(memory)]
    pub fn bytes(&self) -> (usize, usize) {
        let w = |i: usize| self.words[i] as usize;
        let (areas, width) = (64 + 3 * w(2) + 4 * w(3) + 4 * w(4), 7 * w(1) + 64);
        let held = |i: usize| {
            let area = areas + i * width;
            let items = if w(area + 1) < 2 { w(area + 2) } else { 0 };
            64 + 4 * items + 3 * w(area + 9)
        };
        let lines: usize = (0..w(9)).map(held).sum();
        let rows = w(10) + w(11) + w(13) + w(14);
        let used = 64 + 3 * w(6) + 4 * rows + lines;
        (8 * used, 8 * self.words.len())
    }

    // What so many records and reports add to the sum.
    #[inline]
    pub fn put_out(&self, count: usize, reported: usize) -> u64 {
        let put: u64 = self.out[..7 * count].chunks_exact(7).map(|r| r[5] * r[6]).sum();
        let reports = self.reports[..3 * reported].chunks_exact(3);
        let failed: u64 = reports.filter(|r| r[0] == 2).map(|r| r[1]).sum();
        put + failed
    }

    // A market whose lists take so many records and reports beside those of one call.
    pub fn with_room(x: Limits, more: u64) -> Self {
        let words = 64 + x.lines * (7 * x.held + 64) + 3 * x.events + 4 * x.keys + 4 * x.pairs;
        let mut words = vec![0; words as usize];
        let mut count = 0;
        // SAFETY: setup takes any words; words and count are apart.
        let code = unsafe {
            merge_setup(words.as_mut_ptr(), words.len(), x.lines, x.held, x.events, x.keys, x.pairs, 0, &mut count)
        };
        assert_eq!(code, calls::DONE);
        let records = x.lines * (2 * x.held + 8) + 1 + more;
        let reports = x.lines + more;
        Single { words, out: vec![0; 7 * records as usize], reports: vec![0; 3 * reports as usize] }
    }
}

// What an answer's code adds to the sum.
#[inline]
pub fn answered(code: u64, count: u64) -> u64 {
    assert!(code != 0, "a load is refused: {count}");
    if code == calls::DONE { 0 } else { code << 32 }
}

impl Side for Single {
    fn new(x: Limits) -> Self {
        Single::with_room(x, 0)
    }

    #[inline]
    fn call(&mut self, c: &Timed) -> u64 {
        self.call_by(&MERGE, c)
    }

    fn prepare(&mut self, c: &Timed) -> u64 {
        self.call_by(&OWNED, c)
    }
}
