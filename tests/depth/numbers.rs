// Random prices and sizes, the awkward ones among them.
use crate::random::Random;

// Sizes that may stand in a level.
const STANDING: [f64; 14] = [
    5e-324,                  // the smallest
    2.2250738585072009e-308, // the largest subnormal
    2.2250738585072014e-308, // the smallest normal
    1.7976931348623157e308,  // the largest
    1e-9,
    1.0000000000000003e-9,
    9.999999999999999e-10,
    1.0,
    1.0000000000000002,
    0.9999999999999999,
    0.1,
    9007199254740992.0,
    9007199254740993.0,
    1e300,
];
// Sizes that are zero, or not allowed.
const OTHERS: [f64; 8] =
    [0.0, -0.0, -5e-324, -1.0, f64::NAN, f64::INFINITY, f64::NEG_INFINITY, -1.7976931348623157e308];

// A size that may stand in a level.
pub fn standing(r: &mut Random) -> f64 {
    match r.below(4) {
        0 => r.of(&STANDING),
        1 => r.between(1, 100_000) as f64 / 100.0,
        2 => r.between(1, 1 << 53) as f64,
        _ => loop {
            let x = f64::from_bits(r.next() >> 1);
            if x.is_finite() && x > 0.0 {
                return x;
            }
        },
    }
}

// Any size, of which `gone` in a hundred are zero or not allowed.
pub fn size(r: &mut Random, gone: u64) -> f64 {
    if !r.percent(gone) {
        return standing(r);
    }
    match r.below(10) {
        0..=4 => r.of(&[0.0, -0.0]),
        5..=8 => r.of(&OTHERS),
        _ => f64::from_bits(r.next()),
    }
}

// A price out of a market whose prices lie within `width` of the middle; some are at or past the ends.
pub fn price(r: &mut Random, width: u64) -> u32 {
    match r.below(50) {
        0 => r.of(&[0, 1, 2, 999_998, 999_999, 1_000_000, u32::MAX]),
        1 => r.between(0, 1_000_100) as u32,
        _ => r.between(500_000 - width, 500_000 + width) as u32,
    }
}

// A reported best: any number, or none.
pub fn reported(r: &mut Random, width: u64, near: Option<u32>) -> Option<u32> {
    match r.below(20) {
        0 => None,
        1 => Some(r.next() as u32),
        2 => Some(r.of(&[0, 1, 999_999, 1_000_000, u32::MAX])),
        3..=6 => Some(price(r, width)),
        _ => near.map(|p| p.saturating_add_signed(r.below(5) as i32 - 2)),
    }
}
