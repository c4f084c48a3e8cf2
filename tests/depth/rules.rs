// What request 2 of document 02 refuses, by its words and with no code of the crates.
use crate::exported::{Depth, Side, MOST};

pub fn price_allowed(price: u32) -> bool {
    (1..=999_999).contains(&price)
}

pub fn size_allowed(size: f64) -> bool {
    size.is_finite() && !(size < 0.0)
}

fn side_sound(side: &Side, bid: bool) -> bool {
    side.count <= MOST
        && (0..side.count).all(|i| {
            let ordered = |a: u32, b: u32| if bid { a < b } else { a > b };
            price_allowed(side.prices[i])
                && size_allowed(side.sizes[i])
                && side.sizes[i] != 0.0
                && (i == 0 || ordered(side.prices[i - 1], side.prices[i]))
        })
}

pub fn sound(depth: &Depth) -> bool {
    side_sound(&depth.bids, true) && side_sound(&depth.asks, false)
}

// Why setting a level is refused, on a sound depth.
pub fn refusal(side: &Side, price: u32, size: f64) -> Option<u64> {
    let there = side.prices[..side.count].contains(&price);
    if !price_allowed(price) {
        Some(12)
    } else if !size_allowed(size) {
        Some(13)
    } else if !there && size != 0.0 && side.count == MOST {
        Some(14)
    } else {
        None
    }
}
