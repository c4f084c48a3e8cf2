//! The store of one market with its lists, and the calls on it. Its words are read by docs/LAYOUT.md.
mod reading;

use crate::mapped::Words;
use crate::{codes, ffi, ConnId, EventKey, Limits, Refusal};
pub use reading::{Record, ALIGNED, REBUILT};

/// What a call of a [`Store`] answered.
#[derive(Clone, Copy, Debug, PartialEq, Eq)]
pub struct Told {
    /// One of [`codes`].
    pub code: u64,
    /// How many records the call put out; of a refusal its number.
    pub count: u64,
}

impl Told {
    /// For a code that this call does not answer on a sound store with lists that are long enough.
    #[cold]
    pub(crate) fn never(&self) -> ! {
        unreachable!("code {} with {}", self.code, self.count)
    }
}

/// A market by numbers: the proved calls as document 01 has them, for support tools and for hosts that number their messages
/// themselves. A message is any number, a time is any number of milliseconds, and neither is converted. No message is kept.
///
/// A call answers a [`Told`]; [`record_words`](Store::record_words) has the records that it put out. [`Refusal`] says what a host does
/// where a call is refused.
///
/// ```
/// use pollendrift::{codes, EventKey, Limits, Store};
/// let mut store = Store::new(Limits::default(), 100)?;
/// assert_eq!(store.subscribe(1, 5_000, 0).code, codes::DONE);
/// assert_eq!(store.snapshot(1, 0, 10, 0).code, codes::APPLY);
/// let told = store.book_event(1, EventKey::new(7, 8), 11, 0);
/// assert_eq!((told.code, told.count), (codes::APPLY, 1));
/// // kind 1 is a book event (docs/LAYOUT.md, 'Output lists')
/// let [conn, kind, number, key0, key1, message, times] = store.record_words(told)[0];
/// assert_eq!((conn, kind, number), (1, 1, 100));
/// assert_eq!((key0, key1, message, times), (7, 8, 11, 1));
/// # Ok::<(), pollendrift::Refusal>(())
/// ```
///
/// The words are written by the proved calls alone: setup makes a sound store, and every call leaves one. So they are a sound store at
/// every call, and the calls need not test it.
pub struct Store {
    words: Words,
    out: Words,
    reports: Vec<u64>,
    /// Where the line areas start, and the words of one.
    areas: usize,
    area: usize,
}

/// Setup on these words.
fn setup(words: &mut [u64], x: Limits, start: u64) -> Told {
    let mut count = 0;
    // SAFETY: setup takes any words; `words` and `count` are lent mutably, so they are apart.
    let code = unsafe {
        ffi::merge_setup(
            words.as_mut_ptr(),
            words.len(),
            x.lines,
            x.held,
            x.events,
            x.keys,
            x.pairs,
            start,
            &mut count,
        )
    };
    Told { code, count }
}

impl Store {
    /// An empty market of these limits, whose book events are numbered from `start`.
    ///
    /// # Errors
    /// [`Refusal::Limits`] where a limit is outside its range.
    pub fn new(limits: Limits, start: u64) -> Result<Store, Refusal> {
        // Limits are tested before the store's length, so that no words at all show whether they are in range.
        let tried = setup(&mut [], limits, start);
        if tried.count == Refusal::Limits.number() {
            return Err(Refusal::Limits);
        }
        let mut words = Words::zeroed(limits.store_words());
        let told = setup(&mut words, limits, start);
        if told.code != codes::DONE {
            told.never();
        }
        let area = (7 * limits.held + 64) as usize;
        Ok(Store {
            areas: words.len() - limits.lines as usize * area,
            area,
            words,
            out: Words::zeroed(limits.output_words()),
            reports: vec![0; limits.report_words()],
        })
    }

    /// Makes a call on the words and the output list, each a pointer and a length, with a place for its count. The words are a sound
    /// store (see `Store`); words, output list and count are apart.
    #[inline]
    fn told(
        &mut self,
        call: impl FnOnce(*mut u64, usize, *mut u64, usize, &mut u64) -> u64,
    ) -> Told {
        let mut count = 0;
        let (words, out) = (&mut self.words, &mut self.out);
        let code = call(
            words.as_mut_ptr(),
            words.len(),
            out.as_mut_ptr(),
            out.len(),
            &mut count,
        );
        Told { code, count }
    }

    /// The connection subscribed, with a limit of 1 to [`Limits::held`] for its line; see
    /// [`MarketMerge::subscribe_with_limit`](crate::MarketMerge::subscribe_with_limit).
    pub fn subscribe(&mut self, conn: ConnId, limit: u64, t: u64) -> Told {
        // SAFETY: `told` lends a sound store and a count apart from it.
        self.told(|s, n, _, _, count| unsafe { ffi::owned_subscribe(s, n, conn, limit, t, count) })
    }

    /// The connection's subscription snapshot of token 0 or 1; see [`MarketMerge::snapshot`](crate::MarketMerge::snapshot).
    #[inline]
    pub fn snapshot(&mut self, conn: ConnId, token: u64, message: u64, t: u64) -> Told {
        // SAFETY: `told` lends a sound store, an output list and a count, all apart.
        self.told(|s, n, out, m, count| unsafe {
            ffi::owned_snapshot(s, n, out, m, conn, token, message, t, count)
        })
    }

    /// The connection's next book event; see [`MarketMerge::book_event`](crate::MarketMerge::book_event).
    #[inline]
    pub fn book_event(&mut self, conn: ConnId, key: EventKey, message: u64, t: u64) -> Told {
        let (k0, k1) = key.words();
        // SAFETY: `told` lends a sound store, an output list and a count, all apart.
        self.told(|s, n, out, m, count| unsafe {
            ffi::owned_book_event(s, n, out, m, conn, k0, k1, message, t, count)
        })
    }

    /// A print of the connection, or any other message that is counted; see [`MarketMerge::other`](crate::MarketMerge::other).
    #[inline]
    pub fn print(&mut self, conn: ConnId, key: EventKey, message: u64, t: u64) -> Told {
        let (k0, k1) = key.words();
        // SAFETY: `told` lends a sound store, an output list and a count, all apart.
        self.told(|s, n, out, m, count| unsafe {
            ffi::owned_print(s, n, out, m, conn, k0, k1, message, t, count)
        })
    }

    /// The connection closed; see [`MarketMerge::drop_conn`](crate::MarketMerge::drop_conn).
    pub fn drop_conn(&mut self, conn: ConnId, t: u64) -> Told {
        // SAFETY: `told` lends a sound store, an output list and a count, all apart.
        self.told(|s, n, out, m, count| unsafe { ffi::owned_drop(s, n, out, m, conn, t, count) })
    }

    /// Where no connection is in line, one that holds a snapshot takes over; see [`MarketMerge::promote`](crate::MarketMerge::promote).
    pub fn promote(&mut self, t: u64) -> Told {
        // SAFETY: `told` lends a sound store, an output list and a count, all apart.
        self.told(|s, n, out, m, count| unsafe { ffi::owned_promote(s, n, out, m, t, count) })
    }

    /// The applied history is in doubt; see [`MarketMerge::reset`](crate::MarketMerge::reset).
    pub fn reset(&mut self, t: u64) -> Told {
        // SAFETY: `told` lends a sound store and a count apart from it.
        self.told(|s, n, _, _, count| unsafe { ffi::owned_reset(s, n, t, count) })
    }

    /// Asks the views that a tick at `t` may need, one answer for each line, by rising connection.
    pub(crate) fn ask(&self, t: u64, view: impl Fn(usize) -> bool, answers: &mut Vec<u64>) {
        answers.clear();
        let asks = self.asks_views(t);
        answers.extend(
            (0..self.lines()).map(|line| (asks && self.asks_view(line, t) && view(line)) as u64),
        );
    }

    /// Upkeep, with a view answer for each line by rising connection: 1 where a connection that got just the messages that the line holds
    /// would show the applied book, else 0. Any other answer, or another count of answers than [`lines`](Store::lines), is refused with
    /// 11. Gives the count of reports too. See [`MarketMerge::tick`](crate::MarketMerge::tick).
    pub fn tick(&mut self, answers: &[u64], t: u64) -> (Told, usize) {
        let (mut count, mut reported) = (0, 0);
        // SAFETY: `words` is a sound store (see `Store`); its lists, the answers and both counts are apart from it and from each other.
        let code = unsafe {
            ffi::owned_tick(
                self.words.as_mut_ptr(),
                self.words.len(),
                self.out.as_mut_ptr(),
                self.out.len(),
                self.reports.as_mut_ptr(),
                self.reports.len(),
                answers.as_ptr(),
                answers.len(),
                t,
                &mut count,
                &mut reported,
            )
        };
        (Told { code, count }, reported as usize)
    }

    /// Whether the connection is in line.
    #[inline]
    pub fn in_line(&self, conn: ConnId) -> bool {
        // SAFETY: `words` is a sound store (see `Store`), and the only slice.
        unsafe { ffi::owned_in_line(self.words.as_ptr(), self.words.len(), conn) }
    }

    /// Whether some connection is in line.
    #[inline]
    pub fn any_in_line(&self) -> bool {
        // SAFETY: `words` is a sound store (see `Store`), and the only slice.
        unsafe { ffi::owned_any_in_line(self.words.as_ptr(), self.words.len()) }
    }

    /// Whether some connection is in line, waits for its snapshot or holds one.
    #[inline]
    pub fn servable(&self) -> bool {
        // SAFETY: `words` is a sound store (see `Store`), and the only slice.
        unsafe { ffi::owned_servable(self.words.as_ptr(), self.words.len()) }
    }
}
