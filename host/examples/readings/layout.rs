//! What the words of a store say beside `Store::reading`, by docs/LAYOUT.md.
use pollendrift::{EventKey, Kind, Reading};

/// The words of a store with its reading, which says how many rows, items and prints there are.
pub struct Layout<'a> {
    pub words: &'a [u64],
    pub reading: &'a Reading,
}

/// The rows of one print key.
pub struct Counts {
    pub applied: u64,
    pub touched: u64,
    /// Connection and delivered count, by rising connection.
    pub delivered: Vec<[u64; 2]>,
}

/// What a line holds, and since when.
pub struct Held<'a> {
    pub since: Option<u64>,
    pub snapshot: Option<u64>,
    /// Kind, key and message.
    pub items: &'a [[u64; 4]],
    /// Key and message.
    pub prints: &'a [[u64; 3]],
}

/// So many rows of N words from this word on.
fn rows<const N: usize>(words: &[u64], start: u64, count: usize) -> &[[u64; N]] {
    words[start as usize..][..N * count].as_chunks().0
}

impl<'a> Layout<'a> {
    /// When something was applied last.
    pub fn last(&self) -> Option<u64> {
        (self.words[7] != 0).then_some(self.words[8])
    }

    /// Where the key table, the count table and the line areas start.
    fn starts(&self) -> [u64; 3] {
        let limits = &self.reading.limits;
        let keys = 64 + 3 * limits.events;
        let counts = keys + 4 * limits.keys;
        [keys, counts, counts + 4 * limits.pairs]
    }

    /// Nothing where the key has no row.
    pub fn counts(&self, key: EventKey) -> Option<Counts> {
        let [keys, counts, _] = self.starts();
        let of_key = |row: &&[u64; 4]| EventKey::new(row[0], row[1]) == key;
        let key_rows = rows(self.words, keys, self.reading.keys as usize);
        let count_rows = rows(self.words, counts, self.reading.pairs as usize);
        let &[_, _, applied, touched] = key_rows.iter().find(of_key)?;
        let of_conns = count_rows.iter().filter(of_key);
        let mut delivered: Vec<[u64; 2]> = of_conns.map(|row| [row[2], row[3]]).collect();
        // connections rise in each run of the table
        delivered.sort();
        Some(Counts {
            applied,
            touched,
            delivered,
        })
    }

    /// Of the line at this place of the reading.
    pub fn held(&self, place: usize) -> Held<'a> {
        let line = &self.reading.lines[place];
        let limit = self.reading.limits.held;
        let [_, _, areas] = self.starts();
        let area = &self.words[(areas + place as u64 * (7 * limit + 64)) as usize..];
        let waits = matches!(line.kind, Kind::Waiting | Kind::Pending);
        let snapped = line.kind == Kind::Pending && area[4] != 0;
        Held {
            since: waits.then_some(area[3]),
            snapshot: snapped.then_some(area[5]),
            items: rows(area, 32, line.items),
            prints: rows(area, 4 * limit + 64, line.prints),
        }
    }
}
