//! `Depth` beside a map of each side, on random operations; what it refuses; and the depths of `examples/depth`.
#[path = "../examples/depth/tokens.rs"]
mod tokens;

use pollendrift::{Depth, LevelRefusal};
use std::collections::BTreeMap;
use tokens::{Message, Tokens};

#[derive(Default)]
struct Maps([BTreeMap<u32, f64>; 2]);

impl Maps {
    fn side(&mut self, bid: bool) -> &mut BTreeMap<u32, f64> {
        &mut self.0[usize::from(bid)]
    }

    fn set(&mut self, bid: bool, price: u32, size: f64) -> Result<(), LevelRefusal> {
        let side = self.side(bid);
        if !(1..=999_999).contains(&price) {
            return Err(LevelRefusal::Price);
        }
        if !size.is_finite() || size < 0.0 {
            return Err(LevelRefusal::Size);
        }
        if size == 0.0 {
            side.remove(&price);
        } else if side.len() == 512 && !side.contains_key(&price) {
            return Err(LevelRefusal::Full);
        } else {
            side.insert(price, size);
        }
        Ok(())
    }

    fn trim(&mut self, best_bid: Option<u32>, best_ask: Option<u32>) {
        self.side(true)
            .retain(|p, _| best_bid.is_some_and(|best| *p <= best));
        self.side(false)
            .retain(|p, _| best_ask.is_some_and(|best| *p >= best));
    }
}

struct Random(u64);

impl Random {
    fn below(&mut self, n: u64) -> u64 {
        self.0 ^= self.0 << 13;
        self.0 ^= self.0 >> 7;
        self.0 ^= self.0 << 17;
        self.0 % n
    }
}

fn same(depth: &Depth, maps: &Maps) {
    let bits = |(price, size): (u32, f64)| (price, size.to_bits());
    let [asks, bids] = &maps.0;
    let level = |(price, size): (&u32, &f64)| (*price, size.to_bits());
    assert!(depth
        .bid_levels()
        .map(bits)
        .eq(bids.iter().rev().map(level)));
    assert!(depth.ask_levels().map(bits).eq(asks.iter().map(level)));
    let best = |level: Option<(&u32, &f64)>| level.map(|(price, size)| (*price, *size));
    assert_eq!(depth.best_bid(), best(bids.last_key_value()));
    assert_eq!(depth.best_ask(), best(asks.first_key_value()));
}

#[test]
fn beside_maps() {
    let sizes = [
        0.0,
        -0.0,
        1.0,
        0.1,
        5e-324,
        1e300,
        f64::MAX,
        f64::NAN,
        f64::INFINITY,
        -1.0,
    ];
    for (width, operations) in [(8, 2_000), (700, 20_000), (999_999, 5_000)] {
        let mut r = Random(width);
        let (mut depth, mut maps) = (Depth::default(), Maps::default());
        for _ in 0..operations {
            let bid = r.below(2) == 0;
            let price = (500_000 - width as u32 / 2).saturating_add(r.below(width + 1) as u32);
            if r.below(200) == 0 {
                let [b, a] = [0, 1].map(|_| (r.below(9) > 0).then(|| price + r.below(9) as u32));
                depth.trim(b, a);
                maps.trim(b, a);
            } else {
                let size = match r.below(4) {
                    0 => sizes[r.below(sizes.len() as u64) as usize],
                    _ => 1.0 + r.below(10_000) as f64 / 100.0,
                };
                assert_eq!(depth.set(bid, price, size), maps.set(bid, price, size));
            }
            same(&depth, &maps);
        }
    }
}

#[test]
fn refusals() {
    let mut depth = Depth::default();
    for price in 1..=512 {
        depth.set(true, price, 1.0).expect("a free place");
    }
    let before = depth.clone();
    for (price, size, why) in [
        (0, f64::NAN, LevelRefusal::Price),
        (1_000_000, 1.0, LevelRefusal::Price),
        (513, f64::NAN, LevelRefusal::Size),
        (513, -1.0, LevelRefusal::Size),
        (513, 1.0, LevelRefusal::Full),
    ] {
        assert_eq!(depth.set(true, price, size), Err(why));
    }
    assert_eq!(depth, before);
    // a full side still takes what is there, and zero where nothing is
    assert_eq!(depth.set(true, 512, 2.0), Ok(()));
    assert_eq!(depth.set(true, 513, -0.0), Ok(()));
    assert_eq!(depth.set(true, 1, 0.0), Ok(()));
    assert_eq!(depth.set(true, 513, 3.0), Ok(()));
    assert_eq!(depth.best_bid(), Some((513, 3.0)));
}

#[test]
fn sums() {
    let mut depth = Depth::default();
    assert!(depth.bid_depth_from(0).is_sign_positive());
    // added from the lowest price up; the other way round the ones would be lost
    for (price, size) in [(1, 1.0), (2, 1.0), (3, 9007199254740992.0)] {
        depth.set(true, price, size).expect("a level");
        depth.set(false, 4 - price, size).expect("a level");
    }
    assert_eq!(depth.bid_depth_from(1), 9007199254740994.0);
    assert_eq!(depth.bid_depth_from(3), 9007199254740992.0);
    assert_eq!(depth.ask_depth_to(3), 9007199254740992.0);
    assert_eq!(depth.ask_depth_to(1), 9007199254740992.0);
}

#[test]
fn shown() {
    let mut depth = Depth::default();
    depth.set(true, 2, 1.5).expect("a level");
    depth.set(true, 1, 1.0).expect("a level");
    assert_eq!(
        format!("{depth:?}"),
        "Depth { bids: {1: 1.0, 2: 1.5}, asks: {} }"
    );
}

#[test]
fn tokens() {
    let mut tokens = Tokens::default();
    let change = |price, size, best_bid| Message::Change {
        token: 0,
        bid: true,
        price,
        size,
        best_bid,
        best_ask: None,
    };
    assert_ne!(change(1, 1.0, None).key(), change(2, 1.0, None).key());
    tokens.apply(&change(1, 1.0, Some(1)));
    assert!(tokens.depth(0).is_none(), "a change before the book");
    let book = Message::Book {
        token: 0,
        bids: vec![(1, 1.0), (2, 2.0)],
        asks: vec![],
    };
    tokens.apply(&book);
    tokens.apply(&change(1, 5.0, Some(1)));
    assert_eq!(
        tokens.depth(0).and_then(|depth| depth.best_bid()),
        Some((1, 5.0)),
        "the better bid was consumed"
    );
    tokens.apply(&change(1, 5.0, Some(7)));
    assert!(tokens.depth(0).is_none(), "no level at the reported best");
    tokens.apply(&book);
    tokens.apply(&change(0, 5.0, Some(2)));
    assert!(tokens.depth(0).is_none(), "a level that cannot stand");
    tokens.apply(&book);
    tokens.clear();
    assert!(tokens.depth(0).is_none());
}
