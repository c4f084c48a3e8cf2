//! The host's messages that the store holds, by their numbers.
use crate::store::Store;
use crate::ConnId;

/// Messages by number. A number is in use from `keep` to `let_go`; its message may be taken out before.
struct Table<M> {
    messages: Vec<Option<M>>,
    free: Vec<usize>,
    used: usize,
}

impl<M> Table<M> {
    #[inline]
    fn next(&self) -> usize {
        self.free.last().copied().unwrap_or(self.messages.len())
    }

    fn let_go(&mut self, numbers: &mut Vec<usize>) {
        while let Some(number) = numbers.pop() {
            self.used -= 1;
            self.free.push(number);
            self.messages[number] = None;
        }
    }
}

impl<M: Clone> Table<M> {
    /// Keeps a copy under the next number. The number is in use even if the copy panics.
    fn keep(&mut self, numbers: &mut Vec<usize>, msg: &M) {
        let number = self.next();
        if self.free.pop().is_none() {
            self.messages.push(None);
        }
        self.used += 1;
        numbers.push(number);
        self.messages[number] = Some(msg.clone());
    }
}

/// The numbers that one line holds, in the store's order.
struct Line {
    conn: ConnId,
    items: Vec<usize>,
    prints: Vec<usize>,
}

/// The kept messages, with the lines of the store by rising connection.
pub struct Kept<M> {
    table: Table<M>,
    lines: Vec<Line>,
}

impl<M> Kept<M> {
    pub fn new() -> Self {
        Kept {
            table: Table {
                messages: Vec::new(),
                free: Vec::new(),
                used: 0,
            },
            lines: Vec::new(),
        }
    }

    /// How many numbers are in use.
    pub fn len(&self) -> usize {
        self.table.used
    }

    /// The number of the next message.
    #[inline]
    pub fn next(&self) -> usize {
        self.table.next()
    }

    /// Moves a message out, to be applied. Its number is let go when its line follows the store.
    pub fn take(&mut self, number: usize) -> M {
        let message = self.table.messages[number].take();
        message.expect("a held message is put out once")
    }

    /// The messages of a line's items, in order.
    pub fn view(&self, line: usize) -> Vec<&M> {
        let message = |&number: &usize| self.table.messages[number].as_ref();
        let items = self.lines[line].items.iter();
        items
            .map(|number| message(number).expect("an item has its message"))
            .collect()
    }

    fn place(&self, conn: ConnId) -> Result<usize, usize> {
        self.lines.binary_search_by_key(&conn, |line| line.conn)
    }

    /// The connection has a line.
    pub fn insert(&mut self, conn: ConnId) {
        if let Err(place) = self.place(conn) {
            let line = Line {
                conn,
                items: Vec::new(),
                prints: Vec::new(),
            };
            self.lines.insert(place, line);
        }
    }

    /// The connection has no line.
    pub fn remove(&mut self, conn: ConnId) {
        if let Ok(place) = self.place(conn) {
            let mut line = self.lines.remove(place);
            self.table.let_go(&mut line.items);
            self.table.let_go(&mut line.prints);
        }
    }

    /// Lets go what the store let go. A line's items go all at once, and so do its prints.
    #[inline]
    pub fn follow(&mut self, store: &Store) {
        if self.table.used > 0 {
            self.follow_lines(store);
        }
        debug_assert!(self.matches(store));
    }

    fn follow_lines(&mut self, store: &Store) {
        for (place, line) in self.lines.iter_mut().enumerate() {
            if line.items.is_empty() && line.prints.is_empty() {
                continue;
            }
            let (items, prints) = store.held(place);
            if items == 0 {
                self.table.let_go(&mut line.items);
            }
            if prints == 0 {
                self.table.let_go(&mut line.prints);
            }
        }
    }

    /// Whether the lines have the numbers that the store has.
    fn matches(&self, store: &Store) -> bool {
        let same = |(place, line): (usize, &Line)| {
            let (items, prints) = store.messages(place);
            items == line.items && prints == line.prints
        };
        self.lines.len() == store.lines() && self.lines.iter().enumerate().all(same)
    }
}

impl<M: Clone> Kept<M> {
    /// After a call of this connection that had the next number: keeps a copy of its message if the store holds it, and follows.
    pub fn hold(&mut self, store: &Store, conn: ConnId, msg: &M) {
        if let Ok(place) = self.place(conn) {
            let (items, prints) = store.held(place);
            let line = &mut self.lines[place];
            if items > line.items.len() {
                self.table.keep(&mut line.items, msg);
            } else if prints > line.prints.len() {
                self.table.keep(&mut line.prints, msg);
            }
        }
        self.follow(store);
    }
}
