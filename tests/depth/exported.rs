// The exported calls of crates/depth_exports on a depth in four arrays, the best level of a side last.
pub const MOST: usize = 512;

type Prices = [u32; MOST];
type Sizes = [f64; MOST];

extern "C" {
    fn depth_set(
        bid_prices: &mut Prices,
        bid_sizes: &mut Sizes,
        bids: usize,
        ask_prices: &mut Prices,
        ask_sizes: &mut Sizes,
        asks: usize,
        bid: bool,
        price: u32,
        size: f64,
        count: &mut u64,
    ) -> u64;
    fn depth_trim(
        bid_prices: &Prices,
        bid_sizes: &Sizes,
        bids: usize,
        ask_prices: &Prices,
        ask_sizes: &Sizes,
        asks: usize,
        bid_reported: bool,
        best_bid: u32,
        ask_reported: bool,
        best_ask: u32,
        bid_count: &mut u64,
        ask_count: &mut u64,
    ) -> u64;
    fn depth_check(
        bid_prices: &Prices,
        bid_sizes: &Sizes,
        bids: usize,
        ask_prices: &Prices,
        ask_sizes: &Sizes,
        asks: usize,
        count: &mut u64,
    ) -> u64;
    fn depth_best(
        bid_prices: &Prices,
        bid_sizes: &Sizes,
        bids: usize,
        ask_prices: &Prices,
        ask_sizes: &Sizes,
        asks: usize,
        bid: bool,
        price: &mut u32,
        size: &mut f64,
        count: &mut u64,
    ) -> u64;
    fn depth_bid_from(
        bid_prices: &Prices,
        bid_sizes: &Sizes,
        bids: usize,
        ask_prices: &Prices,
        ask_sizes: &Sizes,
        asks: usize,
        floor: u32,
        size: &mut f64,
        count: &mut u64,
    ) -> u64;
    fn depth_ask_to(
        bid_prices: &Prices,
        bid_sizes: &Sizes,
        bids: usize,
        ask_prices: &Prices,
        ask_sizes: &Sizes,
        asks: usize,
        ceiling: u32,
        size: &mut f64,
        count: &mut u64,
    ) -> u64;
    fn owned_depth_set(
        prices: &mut Prices,
        sizes: &mut Sizes,
        count: usize,
        bid: bool,
        price: u32,
        size: f64,
        left: &mut u64,
    ) -> u64;
    fn owned_depth_trim(prices: &Prices, count: usize, bid: bool, reported: bool, best: u32) -> usize;
    fn owned_depth_bid_from(prices: &Prices, sizes: &Sizes, count: usize, floor: u32) -> f64;
    fn owned_depth_ask_to(prices: &Prices, sizes: &Sizes, count: usize, ceiling: u32) -> f64;
}

// What was written where nothing may be written, or is not yet.
pub const PRICE: u32 = 0xDEAD_BEEF;
pub const SIZE: f64 = -12345.678;
pub const COUNT: u64 = 0xFEED_FACE_CAFE_BEEF;

#[derive(Clone)]
pub struct Side {
    pub prices: Box<Prices>,
    pub sizes: Box<Sizes>,
    pub count: usize,
}

impl Side {
    pub fn empty() -> Side {
        Side { prices: Box::new([0; MOST]), sizes: Box::new([0.0; MOST]), count: 0 }
    }
    // Every place, the free ones too, as bits.
    pub fn places(&self) -> Vec<(u32, u64)> {
        self.prices.iter().zip(self.sizes.iter()).map(|(p, s)| (*p, s.to_bits())).collect()
    }
    // The levels from the best outward, as bits. Only of a count up to 512.
    pub fn levels(&self) -> Vec<(u32, u64)> {
        self.places()[..self.count].iter().rev().copied().collect()
    }
    pub fn best(&self) -> Option<(u32, u64)> {
        let last = self.count.checked_sub(1)?;
        Some((self.prices[last], self.sizes[last].to_bits()))
    }
}

#[derive(Clone)]
pub struct Depth {
    pub bids: Side,
    pub asks: Side,
}

// Done with a value, or refused with a number.
pub type Answer<T> = Result<T, u64>;

impl Depth {
    pub fn empty() -> Depth {
        Depth { bids: Side::empty(), asks: Side::empty() }
    }
    pub fn side(&mut self, bid: bool) -> &mut Side {
        if bid { &mut self.bids } else { &mut self.asks }
    }
    pub fn places(&self) -> [Vec<(u32, u64)>; 2] {
        [self.bids.places(), self.asks.places()]
    }

    pub fn set(&mut self, bid: bool, price: u32, size: f64) -> Answer<()> {
        let (b, a) = (&mut self.bids, &mut self.asks);
        let mut count = COUNT;
        // SAFETY: six arrays and counts of the one depth, none of which overlap, and a count of our own.
        let code = unsafe {
            depth_set(
                &mut b.prices, &mut b.sizes, b.count, &mut a.prices, &mut a.sizes, a.count, bid, price, size, &mut count,
            )
        };
        told(code, count)?;
        self.side(bid).count = count as usize;
        Ok(())
    }

    pub fn trim(&mut self, best_bid: Option<u32>, best_ask: Option<u32>) -> Answer<()> {
        let (b, a) = (&mut self.bids, &mut self.asks);
        let (mut bids, mut asks) = (COUNT, COUNT);
        // SAFETY: as for `set`.
        let code = unsafe {
            depth_trim(
                &b.prices, &b.sizes, b.count, &a.prices, &a.sizes, a.count,
                best_bid.is_some(), best_bid.unwrap_or(PRICE), best_ask.is_some(), best_ask.unwrap_or(PRICE),
                &mut bids, &mut asks,
            )
        };
        if code == 0 {
            assert_eq!(asks, COUNT, "a refused trim writes the count of the asks");
        }
        told(code, bids)?;
        (b.count, a.count) = (bids as usize, asks as usize);
        Ok(())
    }

    pub fn check(&self) -> Answer<()> {
        let (b, a) = (&self.bids, &self.asks);
        let mut count = COUNT;
        // SAFETY: as for `set`.
        let code = unsafe { depth_check(&b.prices, &b.sizes, b.count, &a.prices, &a.sizes, a.count, &mut count) };
        told(code, count).map(|_| ())
    }

    pub fn best(&self, bid: bool) -> Answer<Option<(u32, u64)>> {
        let (b, a) = (&self.bids, &self.asks);
        let (mut price, mut size, mut count) = (PRICE, SIZE, COUNT);
        // SAFETY: as for `set`.
        let code = unsafe {
            depth_best(
                &b.prices, &b.sizes, b.count, &a.prices, &a.sizes, a.count, bid, &mut price, &mut size, &mut count,
            )
        };
        if code == 0 || count == 0 {
            assert!(price == PRICE && size == SIZE, "there is no best level, and one is written");
        }
        told(code, count)?;
        Ok((count == 1).then_some((price, size.to_bits())))
    }

    pub fn sum(&self, bid: bool, limit: u32) -> Answer<u64> {
        let (b, a) = (&self.bids, &self.asks);
        let (mut size, mut count) = (SIZE, COUNT);
        let call = if bid { depth_bid_from } else { depth_ask_to };
        // SAFETY: as for `set`.
        let code = unsafe {
            call(&b.prices, &b.sizes, b.count, &a.prices, &a.sizes, a.count, limit, &mut size, &mut count)
        };
        if code == 0 {
            assert_eq!(size, SIZE, "a refused sum is written");
        }
        told(code, count)?;
        Ok(size.to_bits())
    }
}

fn told(code: u64, number: u64) -> Answer<u64> {
    match code {
        0 => Err(number),
        1 => Ok(number),
        _ => panic!("the code {code} is no answer"),
    }
}

// The same work on a side that is sound.
impl Side {
    pub fn owned_set(&mut self, bid: bool, price: u32, size: f64) -> Answer<()> {
        let mut left = COUNT;
        // SAFETY: two arrays that do not overlap, of a sound side.
        let code = unsafe { owned_depth_set(&mut self.prices, &mut self.sizes, self.count, bid, price, size, &mut left) };
        self.count = told(code, left)? as usize;
        Ok(())
    }
    pub fn owned_trim(&mut self, bid: bool, best: Option<u32>) {
        // SAFETY: as for `owned_set`.
        self.count = unsafe { owned_depth_trim(&self.prices, self.count, bid, best.is_some(), best.unwrap_or(PRICE)) };
    }
    pub fn owned_sum(&self, bid: bool, limit: u32) -> u64 {
        // SAFETY: as for `owned_set`.
        let sum = unsafe {
            if bid {
                owned_depth_bid_from(&self.prices, &self.sizes, self.count, limit)
            } else {
                owned_depth_ask_to(&self.prices, &self.sizes, self.count, limit)
            }
        };
        sum.to_bits()
    }
}
