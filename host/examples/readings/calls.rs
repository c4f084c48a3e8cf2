//! The call of a 44-byte record (support/calls.py says the form), made on a store.
use pollendrift::{codes, EventKey, Limits, Store, Told};

/// The limits of the replay program. Each subscription passes `held`.
pub const LIMITS: Limits = Limits {
    lines: 4,
    held: 32,
    events: 128,
    keys: 32,
    pairs: 128,
};

/// The bytes of a record.
pub const BYTES: usize = 44;

const PRINT: u8 = 4;

/// The fields of a record. Those that its call does not use may be anything.
pub struct Call {
    number: u8,
    conn: u64,
    key: EventKey,
    message: u64,
    time: u64,
    index: u64,
}

impl Call {
    /// The fields of these bytes, or why they are no record.
    pub fn of(bytes: &[u8]) -> Result<Call, String> {
        let record: &[u8; BYTES] = bytes
            .try_into()
            .map_err(|_| format!("{} bytes and not {BYTES}", bytes.len()))?;
        let &[mark0, mark1, number, .., index] = record;
        if [mark0, mark1] != *b"MG" {
            return Err(format!("begins {mark0:02X} {mark1:02X} and not 4D 47"));
        }
        let word = |at: usize| u64::from_le_bytes(std::array::from_fn(|i| record[at + i]));
        let [conn, key0, key1, message, time] = [3, 11, 19, 27, 35].map(word);
        Ok(Call {
            number,
            conn,
            key: EventKey::new(key0, key1),
            message,
            time,
            index: index.into(),
        })
    }

    /// Makes the call: what it answered and how many reports it has, or why it is none.
    pub fn make(&self, store: &mut Store) -> Result<(Told, usize), String> {
        let (conn, key, message, t) = (self.conn, self.key, self.message, self.time);
        let told = match self.number {
            1 => store.subscribe(conn, LIMITS.held, t),
            2 => store.snapshot(conn, self.index, message, t),
            3 => store.book_event(conn, key, message, t),
            PRINT => store.print(conn, key, message, t),
            5 => store.drop_conn(conn, t),
            6 => store.promote(t),
            7 => store.reset(t),
            8 => return Ok(store.tick(&vec![self.index; store.lines()], t)),
            other => return Err(format!("the call byte is {other}, and not 1 to 8")),
        };
        Ok((told, 0))
    }

    /// The key of a print.
    pub fn print_key(&self) -> Option<EventKey> {
        (self.number == PRINT).then_some(self.key)
    }
}

/// The replay program's words for an answer.
pub fn answer(told: Told) -> String {
    let word = match told.code {
        codes::REFUSED => return format!("refused {}", told.count),
        codes::DONE => "done",
        codes::APPLY => "apply",
        codes::DUPLICATE => "duplicate",
        codes::HELD => "held",
        codes::IGNORED => "ignored",
        codes::DIVERGED => "diverged",
        codes::FAILED => "failed",
        codes::KEPT => "kept",
        codes::GONE => "gone",
        codes::REBUILD => "rebuild",
        other => unreachable!("code {other}"),
    };
    word.into()
}
