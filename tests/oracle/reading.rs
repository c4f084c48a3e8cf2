// A market as both sides are read, and a store's reading by docs/LAYOUT.md.
use crate::words::{Key, Limits};
use std::collections::BTreeMap;

#[derive(Clone, Debug, PartialEq)]
pub enum Item {
    Snapshot(u64, u64),
    Event(Key, u64),
}

#[derive(Clone, Debug, PartialEq)]
pub enum Line {
    Waiting { items: Vec<Item>, since: u64 },
    Pending { items: Vec<Item>, snapshot: Option<u64>, since: u64 },
    InLine { next: u64, due: [bool; 2] },
    Failed,
}

impl Line {
    // The items of a line that holds some.
    pub fn items(&self) -> &[Item] {
        match self {
            Line::Waiting { items, .. } | Line::Pending { items, .. } => items,
            _ => &[],
        }
    }

    // A pending line's messages.
    pub fn view(&self) -> Vec<u64> {
        let message = |item: &Item| match item {
            Item::Snapshot(_, message) | Item::Event(_, message) => *message,
        };
        match self {
            Line::Pending { items, .. } => items.iter().map(message).collect(),
            _ => Vec::new(),
        }
    }

    pub fn due(&self) -> bool {
        matches!(self, Line::InLine { due, .. } if due[0] || due[1])
    }
}

pub type Held = Vec<(Key, u64)>;

// A connection's line and held prints, and its limit: how many items or held prints make the line fail.
#[derive(Clone, Debug, PartialEq)]
pub struct Conn {
    pub limit: u64,
    pub line: Line,
    pub held: Held,
}

#[derive(Clone, Debug, PartialEq)]
pub struct Market {
    pub base: u64,
    pub log: Vec<(Key, u64)>,
    pub last_applied: Option<u64>,
    // each key's applied count and touched time
    pub keys: BTreeMap<Key, (u64, u64)>,
    pub counts: BTreeMap<(Key, u64), u64>,
    pub lines: BTreeMap<u64, Conn>,
}

impl Market {
    pub fn line(&self, conn: u64) -> Option<&Line> {
        self.lines.get(&conn).map(|c| &c.line)
    }
    pub fn each_line(&self) -> impl Iterator<Item = &Line> {
        self.lines.values().map(|c| &c.line)
    }
    pub fn end(&self) -> u64 {
        self.base + self.log.len() as u64
    }
    pub fn items(&self) -> u64 {
        self.each_line().map(|line| line.items().len() as u64).sum()
    }
    pub fn any_in_line(&self) -> bool {
        self.each_line().any(|line| matches!(line, Line::InLine { .. }))
    }
}

// The reading of a sound store.
pub fn reading(w: &[u64]) -> Result<Market, String> {
    let x = Limits::of(w);
    let (h, g, c, d) = (x.h as usize, x.g as usize, x.c as usize, x.d as usize);
    let log = &w[64..64 + 3 * g];
    let prints = &w[64 + 3 * g..64 + 3 * g + 4 * c + 4 * d];
    let areas = &w[64 + 3 * g + 4 * c + 4 * d..];
    let size = 7 * h + 64;
    let mut lines = BTreeMap::new();
    for a in areas.chunks(size).take(w[9] as usize) {
        if lines.last_key_value().is_some_and(|(&conn, _)| conn >= a[0]) {
            return Err("connections do not rise".into());
        }
        let held = a[4 * h + 64..].chunks(3).take(a[9] as usize).map(|p| ((p[0], p[1]), p[2])).collect();
        lines.insert(a[0], Conn { limit: a[10], line: line(a)?, held });
    }
    let (key_rows, count_rows) = ((w[10] + w[13]) as usize, (w[11] + w[14]) as usize);
    let keys: BTreeMap<_, _> = prints.chunks(4).take(key_rows).map(|r| ((r[0], r[1]), (r[2], r[3]))).collect();
    let counts: BTreeMap<_, _> = prints[4 * c..].chunks(4).take(count_rows).map(|r| (((r[0], r[1]), r[2]), r[3])).collect();
    if keys.len() != key_rows || counts.len() != count_rows {
        return Err("a print row stands twice".into());
    }
    Ok(Market {
        base: w[5],
        log: (0..w[6] as usize).map(|i| (w[15] as usize + i) % g).map(|p| ((log[2 * p], log[2 * p + 1]), log[2 * g + p])).collect(),
        last_applied: (w[7] != 0).then_some(w[8]),
        keys,
        counts,
        lines,
    })
}

fn line(a: &[u64]) -> Result<Line, String> {
    let items = || a[32..].chunks(4).take(a[2] as usize).map(item).collect();
    Ok(match a[1] {
        0 => Line::Waiting { items: items(), since: a[3] },
        1 => Line::Pending { items: items(), snapshot: (a[4] != 0).then_some(a[5]), since: a[3] },
        2 => Line::InLine { next: a[6], due: [a[7] != 0, a[8] != 0] },
        3 => Line::Failed,
        kind => return Err(format!("line kind {kind}")),
    })
}

fn item(a: &[u64]) -> Item {
    match a[0] {
        0 => Item::Event((a[1], a[2]), a[3]),
        kind => Item::Snapshot(kind - 1, a[3]),
    }
}
