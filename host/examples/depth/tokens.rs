//! The depths of a market's two tokens, as the applied messages leave them.
use pollendrift::{Depth, EventKey, LevelRefusal};

/// A message of the venue.
#[derive(Clone, Debug)]
pub enum Message {
    /// A token's full book.
    Book {
        token: usize,
        bids: Vec<(u32, f64)>,
        asks: Vec<(u32, f64)>,
    },
    /// The new size of a token's level, and the best prices that the venue reports with it.
    Change {
        token: usize,
        bid: bool,
        price: u32,
        size: f64,
        best_bid: Option<u32>,
        best_ask: Option<u32>,
    },
}

impl Message {
    /// The same on every connection, and different for different messages.
    pub fn key(&self) -> EventKey {
        EventKey::of_bytes(format!("{self:?}").as_bytes())
    }
}

/// A token without a depth has had no full book yet.
#[derive(Default)]
pub struct Tokens {
    depths: [Option<Depth>; 2],
}

impl Tokens {
    /// The token's depth, if its best levels are what the venue reports.
    pub fn depth(&self, token: usize) -> Option<&Depth> {
        self.depths[token].as_ref()
    }

    /// Empties the book, as a rebuild needs it.
    pub fn clear(&mut self) {
        self.depths = [None, None];
    }

    /// A level that cannot stand leaves the token without a depth, until its next full book.
    pub fn apply(&mut self, message: &Message) {
        match message {
            Message::Book { token, bids, asks } => self.depths[*token] = book(bids, asks).ok(),
            Message::Change { token, .. } => {
                if let Some(mut depth) = self.depths[*token].take() {
                    if change(&mut depth, message).is_ok_and(|exact| exact) {
                        self.depths[*token] = Some(depth);
                    }
                }
            }
        }
    }
}

fn book(bids: &[(u32, f64)], asks: &[(u32, f64)]) -> Result<Depth, LevelRefusal> {
    let mut depth = Depth::default();
    for (bid, levels) in [(true, bids), (false, asks)] {
        for &(price, size) in levels {
            depth.set(bid, price, size)?;
        }
    }
    Ok(depth)
}

/// Whether the depth's best levels are then those that are reported. Trades consume levels without a change of their own, so levels better
/// than the best go.
fn change(depth: &mut Depth, message: &Message) -> Result<bool, LevelRefusal> {
    let Message::Change {
        bid,
        price,
        size,
        best_bid,
        best_ask,
        ..
    } = *message
    else {
        return Ok(true);
    };
    depth.set(bid, price, size)?;
    depth.trim(best_bid, best_ask);
    let best = |level: Option<(u32, f64)>| level.map(|(price, _)| price);
    Ok(best(depth.best_bid()) == best_bid && best(depth.best_ask()) == best_ask)
}
