// Whether words are a sound store: 01, "Quantities", on the words of docs/LAYOUT.md, which also has the order of the print rows. Nothing
// here comes from the crates. A number is trusted only after the test that bounds it.
use crate::words::{Limits, LAYOUT};

// What can be wrong with a store.
pub const FAULTS: [&str; 33] = [
    "shorter than a header",
    "limits out of range",
    "shorter than its limits need",
    "more log entries than G",
    "more lines than L",
    "more key rows than C",
    "more count rows than D",
    "key rows do not rise",
    "count rows do not rise",
    "applied count above 32 bits",
    "delivered count above 32 bits",
    "count row without its key",
    "connections do not rise",
    "line kind unknown",
    "more items than H + 8",
    "item kind unknown",
    "more held prints than H",
    "next above the end",
    "log and items above G",
    "end and items above 2^64 - 1",
    "another layout",
    "more than 512 new rows",
    "a key stands in both runs",
    "a pair stands in both runs",
    "front at G or beyond",
    "limit 0 of a Waiting line",
    "limit above H of a Waiting line",
    "limit 0 of a Pending line",
    "limit above H of a Pending line",
    "limit 0 of a line in line",
    "limit above H of a line in line",
    "limit 0 of a Failed line",
    "limit above H of a Failed line",
];

pub fn sound(w: &[u64]) -> bool {
    fault(w).is_none()
}

// The number of the first thing that is wrong.
pub fn fault(w: &[u64]) -> Option<usize> {
    header(w).and_then(|x| prints(w, x).and_then(|()| lines(w, x))).err()
}

fn need(holds: bool, fault: usize) -> Result<(), usize> {
    if holds {
        Ok(())
    } else {
        Err(fault)
    }
}

fn header(w: &[u64]) -> Result<Limits, usize> {
    need(w.len() >= 64, 0)?;
    need(w[12] == LAYOUT, 20)?;
    let x = Limits::of(w);
    need(x.in_range(), 1)?;
    need(w.len() >= x.store(), 2)?;
    need(w[15] < x.g, 24)?;
    need(w[6] <= x.g, 3)?;
    need(w[9] <= x.l, 4)?;
    need(w[13] <= 512 && w[14] <= 512, 21)?;
    need(w[10] as u128 + w[13] as u128 <= x.c as u128, 5)?;
    need(w[11] as u128 + w[14] as u128 <= x.d as u128, 6)?;
    Ok(x)
}

// Each run rises by its first words; then all rows in order, where none may stand twice.
fn rows(table: &[u64], old: u64, new: u64, by: usize, faults: [usize; 2]) -> Result<Vec<&[u64]>, usize> {
    let mut all: Vec<&[u64]> = table.chunks(4).take((old + new) as usize).collect();
    let (front, back) = all.split_at(old as usize);
    need([front, back].iter().all(|run| run.windows(2).all(|r| r[0][..by] < r[1][..by])), faults[0])?;
    all.sort_by_key(|row| &row[..by]);
    need(all.windows(2).all(|r| r[0][..by] < r[1][..by]), faults[1])?;
    Ok(all)
}

fn prints(w: &[u64], x: Limits) -> Result<(), usize> {
    let at = 64 + 3 * x.g as usize;
    let keys = rows(&w[at..], w[10], w[13], 2, [7, 22])?;
    let counts = rows(&w[at + 4 * x.c as usize..], w[11], w[14], 3, [8, 23])?;
    need(keys.iter().all(|row| row[2] < 1 << 32), 9)?;
    need(counts.iter().all(|row| row[3] < 1 << 32), 10)?;
    need(counts.iter().all(|row| keys.binary_search_by(|key| key[..2].cmp(&row[..2])).is_ok()), 11)
}

fn lines(w: &[u64], x: Limits) -> Result<(), usize> {
    let at = 64 + 3 * x.g as usize + 4 * x.c as usize + 4 * x.d as usize;
    let areas: Vec<&[u64]> = w[at..].chunks(7 * x.h as usize + 64).take(w[9] as usize).collect();
    let end = w[5] as u128 + w[6] as u128;
    need(areas.windows(2).all(|a| a[0][0] < a[1][0]), 12)?;
    for a in &areas {
        need(a[1] <= 3, 13)?;
        need(a[10] >= 1, 25 + 2 * a[1] as usize)?;
        need(a[10] <= x.h, 26 + 2 * a[1] as usize)?;
        need(a[1] > 1 || a[2] <= x.h + 8, 14)?;
        need(a[1] > 1 || a[32..].chunks(4).take(a[2] as usize).all(|item| item[0] <= 2), 15)?;
        need(a[9] <= x.h, 16)?;
        need(a[1] != 2 || a[6] as u128 <= end, 17)?;
    }
    let items: u64 = areas.iter().filter(|a| a[1] < 2).map(|a| a[2]).sum();
    need(w[6] + items <= x.g, 18)?;
    need(end + items as u128 <= u64::MAX as u128, 19)
}
