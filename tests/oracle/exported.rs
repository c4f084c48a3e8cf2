// The proved side: the exported calls on lent words.
use crate::words::{Answer, Call, Limits, Record};

extern "C" {
    fn merge_setup(
        s: *mut u64,
        n: usize,
        lines: u64,
        held: u64,
        events: u64,
        keys: u64,
        pairs: u64,
        start: u64,
        count: &mut u64,
    ) -> u64;
    fn merge_subscribe(s: *mut u64, n: usize, conn: u64, limit: u64, t: u64, count: &mut u64) -> u64;
    fn merge_snapshot(
        s: *mut u64,
        n: usize,
        out: *mut u64,
        m: usize,
        conn: u64,
        token: u64,
        message: u64,
        t: u64,
        count: &mut u64,
    ) -> u64;
    fn merge_book_event(
        s: *mut u64,
        n: usize,
        out: *mut u64,
        m: usize,
        conn: u64,
        k0: u64,
        k1: u64,
        message: u64,
        t: u64,
        count: &mut u64,
    ) -> u64;
    fn merge_print(
        s: *mut u64,
        n: usize,
        out: *mut u64,
        m: usize,
        conn: u64,
        k0: u64,
        k1: u64,
        message: u64,
        t: u64,
        count: &mut u64,
    ) -> u64;
    fn merge_drop(s: *mut u64, n: usize, out: *mut u64, m: usize, conn: u64, t: u64, count: &mut u64) -> u64;
    fn merge_promote(s: *mut u64, n: usize, out: *mut u64, m: usize, t: u64, count: &mut u64) -> u64;
    fn merge_reset(s: *mut u64, n: usize, t: u64, count: &mut u64) -> u64;
    fn merge_tick(
        s: *mut u64,
        n: usize,
        out: *mut u64,
        m: usize,
        reports: *mut u64,
        k: usize,
        answers: *const u64,
        a: usize,
        t: u64,
        count: &mut u64,
        reported: &mut u64,
    ) -> u64;
    fn merge_in_line(s: *const u64, n: usize, conn: u64, count: &mut u64) -> u64;
    fn merge_any_in_line(s: *const u64, n: usize, count: &mut u64) -> u64;
    fn merge_servable(s: *const u64, n: usize, count: &mut u64) -> u64;
    fn merge_view(s: *const u64, n: usize, conn: u64, list: *mut u64, m: usize, count: &mut u64) -> u64;
}

// What lies in the lists before a call: places past the reported count have to stay.
pub const UNTOUCHED: u64 = 0xA5A5_5A5A_0F0F_F0F0;

// What is lent to a call. Each is an allocation of just that length, so that valgrind sees a step out of it.
#[derive(Clone, Debug, PartialEq)]
pub struct Lent {
    pub store: Vec<u64>,
    pub out: Vec<u64>,
    pub reports: Vec<u64>,
    pub answers: Vec<u64>,
    pub list: Vec<u64>,
}

const STEPS: [&str; 11] =
    ["refused", "done", "apply", "duplicate", "held", "ignored", "diverged", "failed", "kept", "gone", "rebuild"];
const QUERIES: [&str; 3] = ["refused", "yes", "no"];
const VIEWS: [&str; 2] = ["refused", "messages"];

impl Lent {
    // Lists as long as the limits need, and `more` words.
    pub fn new(store: Vec<u64>, x: Limits, more: usize) -> Lent {
        Lent {
            store,
            out: vec![UNTOUCHED; x.records() + more],
            reports: vec![UNTOUCHED; x.reports() + more],
            answers: Vec::new(),
            list: vec![UNTOUCHED; x.items() + more],
        }
    }

    // A store of words, and setup's call on it.
    pub fn setup(x: Limits, start: u64, more: usize) -> Lent {
        let mut lent = Lent::new(vec![UNTOUCHED; x.store() + more], x, more);
        let answer = lent.call(&Call::Setup { limits: x, start }, 0).expect("setup answers");
        assert_eq!(answer.word, "done", "setup of {x:?}");
        lent
    }

    pub fn call(&mut self, call: &Call, t: u64) -> Result<Answer, String> {
        let (mut count, mut reported) = (UNTOUCHED, 0);
        let code = self.exported(call, t, &mut count, &mut reported);
        self.answer(call, code, count, reported)
    }

    fn exported(&mut self, call: &Call, t: u64, count: &mut u64, reported: &mut u64) -> u64 {
        let (s, n) = (self.store.as_mut_ptr(), self.store.len());
        let (out, m) = (self.out.as_mut_ptr(), self.out.len());
        let (rs, k) = (self.reports.as_mut_ptr(), self.reports.len());
        let (answers, a) = (self.answers.as_ptr(), self.answers.len());
        let (list, i) = (self.list.as_mut_ptr(), self.list.len());
        unsafe {
            match *call {
                Call::Setup { limits: x, start } => merge_setup(s, n, x.l, x.h, x.g, x.c, x.d, start, count),
                Call::Subscribe { conn, limit } => merge_subscribe(s, n, conn, limit, t, count),
                Call::Snapshot { conn, token, message } => merge_snapshot(s, n, out, m, conn, token, message, t, count),
                Call::Book { conn, key, message } => merge_book_event(s, n, out, m, conn, key.0, key.1, message, t, count),
                Call::Print { conn, key, message } => merge_print(s, n, out, m, conn, key.0, key.1, message, t, count),
                Call::Drop { conn } => merge_drop(s, n, out, m, conn, t, count),
                Call::Promote => merge_promote(s, n, out, m, t, count),
                Call::Reset => merge_reset(s, n, t, count),
                Call::Tick => merge_tick(s, n, out, m, rs, k, answers, a, t, count, reported),
                Call::InLine { conn } => merge_in_line(s, n, conn, count),
                Call::AnyInLine => merge_any_in_line(s, n, count),
                Call::Servable => merge_servable(s, n, count),
                Call::View { conn } => merge_view(s, n, conn, list, i, count),
            }
        }
    }

    // Reads the lists and makes them untouched again.
    fn answer(&mut self, call: &Call, code: u64, count: u64, reported: u64) -> Result<Answer, String> {
        let names = match call {
            Call::InLine { .. } | Call::AnyInLine | Call::Servable => &QUERIES[..],
            Call::View { .. } => &VIEWS,
            _ => &STEPS,
        };
        let word = *names.get(code as usize).ok_or(format!("{}: code {code}", call.name()))?;
        let counted = if code == 0 { 0 } else { count as usize };
        let (records, messages) = if let Call::View { .. } = call { (0, counted) } else { (counted, 0) };
        if records > self.out.len() / 7 || reported as usize > self.reports.len() / 3 || messages > self.list.len() {
            return Err(format!("{records} records, {reported} reports, {messages} messages: more than the lists take"));
        }
        let (out, reports) = (&mut self.out[..7 * records], &mut self.reports[..3 * reported as usize]);
        let answer = Answer {
            word,
            refused: if code == 0 { count } else { 0 },
            records: out.chunks(7).map(record).collect(),
            reports: reports.chunks(3).map(|r| (r[0], r[1], r[2])).collect(),
            messages: self.list[..messages].to_vec(),
        };
        out.fill(UNTOUCHED);
        reports.fill(UNTOUCHED);
        self.list[..messages].fill(UNTOUCHED);
        if self.out.iter().chain(&self.reports).chain(&self.list).any(|&w| w != UNTOUCHED) {
            return Err("a place past the reported count was written".into());
        }
        Ok(answer)
    }
}

fn record(r: &[u64]) -> Record {
    Record { conn: r[0], kind: r[1], number: r[2], key: (r[3], r[4]), message: r[5], times: r[6] }
}
