// Many calls at once: lists of calls on a store that is tested once for a list.
use crate::calls::{Call, Side, Timed};
use crate::single::{answered, Single};
use pollendrift::Limits;

// Calls in a list.
const LIST: usize = 64;
// Records and reports that the lists take beside those of one call; a list without room for its next call ends before it.
const MORE: u64 = 4 * LIST as u64;
// Words of a call and of an answer.
const CALL: usize = 8;
const ANSWER: usize = 3;

extern "C" {
    #[rustfmt::skip]
    fn merge_batch(s: *mut u64, n: usize, out: *mut u64, m: usize, reports: *mut u64, k: usize, answers: *mut u64, a: usize,
        calls: *const u64, c: usize, done: &mut u64, count: &mut u64, reported: &mut u64) -> u64;
}

pub struct Batch {
    market: Single,
    calls: Vec<u64>,
    answers: Vec<u64>,
}

// The words of a call; every line's limit is `held`. No line enters by its view in any load, so the last is 0.
#[inline]
fn words(c: &Timed, held: u64) -> [u64; CALL] {
    let (number, token_or_limit, key) = match c.call {
        Call::Subscribe => (1, held, (0, 0)),
        Call::Snapshot(token) => (2, token as u64, (0, 0)),
        Call::Book(key) => (3, 0, key),
        Call::Print(key) => (4, 0, key),
        Call::Drop => (5, 0, (0, 0)),
        Call::Tick => (8, 0, (0, 0)),
    };
    [number, c.conn, token_or_limit, key.0, key.1, c.message, c.t, 0]
}

impl Batch {
    // How many calls were done, and the sum of their answers.
    fn list(&mut self, list: &[Timed]) -> (usize, u64) {
        self.calls.clear();
        let m = &mut self.market;
        let held = m.words[1];
        list.iter().for_each(|c| self.calls.extend_from_slice(&words(c, held)));
        let (mut done, mut count, mut reported) = (0, 0, 0);
        // SAFETY: the calls take any words; the lists and counts are apart.
        #[rustfmt::skip]
        let code = unsafe {
            merge_batch(m.words.as_mut_ptr(), m.words.len(), m.out.as_mut_ptr(), m.out.len(),
                m.reports.as_mut_ptr(), m.reports.len(), self.answers.as_mut_ptr(), self.answers.len(),
                self.calls.as_ptr(), self.calls.len(), &mut done, &mut count, &mut reported)
        };
        // All done, or no room for the next call.
        assert!((code == 1 || code == 11) && done > 0, "a list is refused: {code} {done}");
        let answers = self.answers[..ANSWER * done as usize].chunks_exact(ANSWER);
        let sum = answers.fold(0u64, |sum, a| sum.wrapping_add(answered(a[0], a[1])));
        (done as usize, sum.wrapping_add(m.put_out(count as usize, reported as usize)))
    }
}

impl Side for Batch {
    fn new(limits: Limits) -> Self {
        let market = Single::with_room(limits, MORE);
        Batch { market, calls: Vec::with_capacity(CALL * LIST), answers: vec![0; ANSWER * LIST] }
    }

    fn call(&mut self, c: &Timed) -> u64 {
        self.list(std::slice::from_ref(c)).1
    }

    fn calls(&mut self, mut rest: &[Timed]) -> u64 {
        let mut sum = 0u64;
        while !rest.is_empty() {
            let (done, told) = self.list(&rest[..rest.len().min(LIST)]);
            sum = sum.wrapping_add(told);
            rest = &rest[done..];
        }
        sum
    }

    fn prepare(&mut self, c: &Timed) -> u64 {
        self.market.prepare(c)
    }
}
