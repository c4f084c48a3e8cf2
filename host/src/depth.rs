use crate::ffi;
use std::collections::BTreeMap;
use std::fmt;

/// The most levels of a side.
const MOST: usize = 512;

/// Why a level was not set. The depth is as it was.
///
/// The numbers are those of request 2 of document 02. Its refusal 1, a depth that is not sound, cannot come up: nobody but [`Depth`] writes
/// its levels.
#[derive(Clone, Copy, Debug, PartialEq, Eq, Hash)]
pub enum LevelRefusal {
    /// 12: the price is outside 1 to 999,999 millionths. A fault of the host or the venue; only this level is lost.
    Price = 12,
    /// 13: the size is negative or not finite. A fault of the host or the venue; only this level is lost.
    Size = 13,
    /// 14: a new level on a side of 512. Remove the level farthest out and set it again; or go on without it, and take the depth for not
    /// exact until the venue's next full book.
    Full = 14,
}

impl LevelRefusal {
    /// The number of this refusal in document 02.
    pub const fn number(self) -> u64 {
        self as u64
    }

    #[cold]
    fn of(number: u64) -> Self {
        use LevelRefusal::*;
        [Price, Size, Full]
            .into_iter()
            .find(|refusal| refusal.number() == number)
            .unwrap_or_else(|| unreachable!("refusal {number} of a sound side"))
    }
}

impl fmt::Display for LevelRefusal {
    fn fmt(&self, f: &mut fmt::Formatter<'_>) -> fmt::Result {
        let meaning = match self {
            LevelRefusal::Price => "the price is outside 1 to 999,999 millionths",
            LevelRefusal::Size => "the size is negative or not finite",
            LevelRefusal::Full => "a new level on a side of 512",
        };
        write!(f, "refused {}: {meaning}", self.number())
    }
}

impl std::error::Error for LevelRefusal {}

/// The level farthest out first, the best last. It begins empty and only the `owned_depth_` calls write it, so it is sound.
#[derive(Clone)]
struct Side {
    prices: [u32; MOST],
    sizes: [f64; MOST],
    count: usize,
}

impl Side {
    fn empty() -> Box<Side> {
        Box::new(Side {
            prices: [0; MOST],
            sizes: [0.0; MOST],
            count: 0,
        })
    }

    #[inline]
    fn levels(&self) -> impl DoubleEndedIterator<Item = (u32, f64)> + '_ {
        let prices = &self.prices[..self.count];
        let sizes = &self.sizes[..self.count];
        prices.iter().copied().zip(sizes.iter().copied()).rev()
    }

    #[inline]
    fn set(&mut self, bid: bool, price: u32, size: f64) -> Result<(), LevelRefusal> {
        let mut left = 0;
        // SAFETY: the arrays are this side's own, and the side is sound.
        let done = unsafe {
            ffi::owned_depth_set(
                &mut self.prices,
                &mut self.sizes,
                self.count,
                bid,
                price,
                size,
                &mut left,
            )
        };
        if done == 0 {
            return Err(LevelRefusal::of(left));
        }
        self.count = left as usize;
        Ok(())
    }

    #[inline]
    fn trim(&mut self, bid: bool, best: Option<u32>) {
        // SAFETY: the side is sound.
        self.count = unsafe {
            ffi::owned_depth_trim(
                &self.prices,
                self.count,
                bid,
                best.is_some(),
                best.unwrap_or(0),
            )
        };
    }
}

/// One token's resting size per price level, in millionths of a dollar: `Depth` of the original `market_data` module, up to 512 levels a
/// side.
///
/// ```
/// use pollendrift::{Depth, LevelRefusal};
///
/// let mut depth = Depth::default();
/// depth.set(true, 450_000, 100.0)?;
/// depth.set(true, 455_000, 30.0)?;
/// depth.set(false, 470_000, 80.0)?;
/// assert_eq!(depth.best_bid(), Some((455_000, 30.0)));
/// depth.trim(Some(450_000), Some(470_000));
/// assert_eq!(depth.best_bid(), Some((450_000, 100.0)));
/// assert_eq!(depth.set(true, 1_000_000, 1.0), Err(LevelRefusal::Price));
/// # Ok::<(), LevelRefusal>(())
/// ```
#[derive(Clone)]
pub struct Depth {
    bids: Box<Side>,
    asks: Box<Side>,
}

impl Depth {
    /// (price, size) of the bids from the best price outward.
    pub fn bid_levels(&self) -> impl DoubleEndedIterator<Item = (u32, f64)> + '_ {
        self.bids.levels()
    }

    /// (price, size) of the asks from the best price outward.
    pub fn ask_levels(&self) -> impl DoubleEndedIterator<Item = (u32, f64)> + '_ {
        self.asks.levels()
    }

    /// The highest bid.
    pub fn best_bid(&self) -> Option<(u32, f64)> {
        self.bid_levels().next()
    }

    /// The lowest ask.
    pub fn best_ask(&self) -> Option<(u32, f64)> {
        self.ask_levels().next()
    }

    /// Bid size priced at or above `floor`; that of no level is plus zero.
    pub fn bid_depth_from(&self, floor: u32) -> f64 {
        let side = &self.bids;
        // SAFETY: the side is sound.
        unsafe { ffi::owned_depth_bid_from(&side.prices, &side.sizes, side.count, floor) }
    }

    /// Ask size priced at or below `ceiling`; that of no level is plus zero.
    pub fn ask_depth_to(&self, ceiling: u32) -> f64 {
        let side = &self.asks;
        // SAFETY: the side is sound.
        unsafe { ffi::owned_depth_ask_to(&side.prices, &side.sizes, side.count, ceiling) }
    }

    /// Sets the size of the level at `price`. Size zero, of either sign, removes the level, or does nothing where there is none.
    ///
    /// # Errors
    ///
    /// The level that cannot stand is refused, and the depth stays as it was.
    pub fn set(&mut self, bid: bool, price: u32, size: f64) -> Result<(), LevelRefusal> {
        let side = if bid { &mut self.bids } else { &mut self.asks };
        side.set(bid, price, size)
    }

    /// Drops every level better than the best that is reported for its side, or the whole side where none is. The level at the best stays.
    pub fn trim(&mut self, best_bid: Option<u32>, best_ask: Option<u32>) {
        self.bids.trim(true, best_bid);
        self.asks.trim(false, best_ask);
    }
}

impl Default for Depth {
    fn default() -> Self {
        Depth {
            bids: Side::empty(),
            asks: Side::empty(),
        }
    }
}

/// The same levels, with the same sizes.
impl PartialEq for Depth {
    fn eq(&self, other: &Self) -> bool {
        self.bid_levels().eq(other.bid_levels()) && self.ask_levels().eq(other.ask_levels())
    }
}

/// The levels by rising price, as the original shows them.
impl fmt::Debug for Depth {
    fn fmt(&self, f: &mut fmt::Formatter<'_>) -> fmt::Result {
        let bids: BTreeMap<u32, f64> = self.bid_levels().collect();
        let asks: BTreeMap<u32, f64> = self.ask_levels().collect();
        f.debug_struct("Depth")
            .field("bids", &bids)
            .field("asks", &asks)
            .finish()
    }
}
