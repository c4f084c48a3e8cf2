// A host as it is written for the original: it applies each entry of a list, and adds up the traded volume. main.rs includes this file
// twice, over the original and over the drop-in. It knows of no count of copies and of no refusal.

/// A message below this is a book's; any other is a print of what it is above it.
pub const PRINT: u64 = 1_000_000;

pub struct Desk {
    pub merge: MarketMerge,
    /// Contracts traded, by the prints that were applied.
    pub volume: u64,
    /// Book messages that were applied, in order.
    pub book: Vec<u64>,
}

impl Desk {
    pub fn new(merge: MarketMerge) -> Desk {
        Desk {
            merge,
            volume: 0,
            book: Vec::new(),
        }
    }

    fn apply(&mut self, out: Vec<Applied>) {
        for applied in out {
            if applied.msg < PRINT {
                self.book.push(applied.msg);
            } else {
                self.volume += applied.msg - PRINT;
            }
        }
    }

    fn step(&mut self, step: Step) {
        if let Step::Apply(out) = step {
            self.apply(out);
        }
    }

    fn lost(&mut self, lost: Lost) {
        if let Lost::Rebuild(out) = lost {
            self.book.clear();
            self.apply(out);
        }
    }

    pub fn subscribe(&mut self, conn: u64, now: Instant) {
        let _ = self.merge.subscribe(conn, now);
    }

    pub fn snapshot(&mut self, conn: u64, index: usize, msg: u64, now: Instant) {
        let step = self.merge.snapshot(conn, index, &msg, now);
        self.step(step);
    }

    pub fn book_event(&mut self, conn: u64, key: EventKey, msg: u64, now: Instant) {
        let step = self.merge.book_event(conn, key, &msg, now);
        self.step(step);
    }

    pub fn print(&mut self, conn: u64, key: EventKey, size: u64, now: Instant) {
        let step = self.merge.other(conn, key, &(PRINT + size), now);
        self.step(step);
    }

    pub fn drop_conn(&mut self, conn: u64, now: Instant) {
        let lost = self.merge.drop_conn(conn, now);
        self.lost(lost);
    }

    pub fn promote(&mut self, now: Instant) {
        let lost = self.merge.promote(now);
        self.lost(lost);
    }

    pub fn reset(&mut self, now: Instant) {
        self.merge.reset(now);
    }

    pub fn tick(&mut self, now: Instant) {
        for expired in self.merge.tick(now, &|_| false) {
            match expired {
                Expired::Aligned(_, out) => self.apply(out),
                Expired::Rebuild(_, out) => {
                    self.book.clear();
                    self.apply(out);
                }
                Expired::Failed(_) => {}
            }
        }
    }
}
