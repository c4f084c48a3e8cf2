// damaged OPERATIONS SEED: the calls on depths of which most are not sound, in one place or in many. Every answer is one that request 2
// names, refusal 1 comes exactly where the depth is not sound, a refusal changes no place, and what is sound stays sound.
#[allow(dead_code)]
mod exported;
#[allow(dead_code)]
mod numbers;
#[allow(dead_code)]
#[path = "../oracle/random.rs"]
mod random;
#[allow(dead_code)]
mod rules;

use exported::{Depth, Side, MOST};
use random::Random;

// A sound side.
fn side(r: &mut Random, bid: bool) -> Side {
    let mut side = Side::empty();
    side.count = r.of(&[0, 1, 2, 3, 10, 50, 511, 512]);
    let step = r.of(&[1, 2, 1_000]);
    for i in 0..MOST {
        let price = 1 + step * i as u32;
        side.prices[i] = if bid { price } else { 1_000_000 - price };
        side.sizes[i] = numbers::standing(r);
    }
    side
}

// One change at the edges of what is sound.
fn damage(r: &mut Random, side: &mut Side) {
    let last = side.count.clamp(1, MOST) - 1;
    let i = {
        let any = r.below(MOST as u64) as usize;
        r.of(&[0, last, any, side.count.min(MOST - 1)])
    };
    let j = r.below(MOST as u64) as usize;
    match r.below(8) {
        0 => side.count = r.of(&[0, 511, 512, 513, 1 << 32, usize::MAX]),
        1 => side.prices[i] = r.of(&[0, 1, 999_999, 1_000_000, u32::MAX]),
        2 => side.prices[i] = side.prices[j],
        3 => side.prices.swap(i, j),
        4 => side.sizes[i] = r.of(&[0.0, -0.0, -1.0, 5e-324, f64::MAX]),
        5 => side.sizes[i] = r.of(&[f64::NAN, f64::INFINITY, f64::NEG_INFINITY, -5e-324]),
        6 => side.sizes[i] = f64::from_bits(r.next()),
        _ => side.prices[i] = side.prices[i].wrapping_add_signed(r.of(&[-1, 1])),
    }
}

fn main() {
    let args: Vec<u64> = std::env::args().skip(1).map(|a| a.parse().expect("a number")).collect();
    let (operations, seed) = (args[0], args[1]);
    let [mut unsound, mut done, mut refused] = [0u64; 3];
    let mut depth = Depth::empty();
    for n in 0..operations {
        let mut r = Random::part(seed, n);
        if n % 8 == 0 {
            depth = Depth { bids: side(&mut r, true), asks: side(&mut r, false) };
            for _ in 0..r.below(3) {
                let bid = r.percent(50);
                damage(&mut r, depth.side(bid));
            }
        } else if r.percent(20) {
            let bid = r.percent(50);
            damage(&mut r, depth.side(bid));
        }
        let sound = rules::sound(&depth);
        let before = depth.places();
        let bid = r.percent(50);
        let price = numbers::price(&mut r, 400_000);
        let size = numbers::size(&mut r, 40);
        let what = r.below(6);
        let expected = if !sound {
            Some(1)
        } else if what < 2 {
            rules::refusal(depth.side(bid), price, size)
        } else {
            None
        };
        let answer = match what {
            0 | 1 => depth.set(bid, price, size),
            2 => depth.trim(numbers::reported(&mut r, 400_000, None), numbers::reported(&mut r, 400_000, None)),
            3 => depth.check(),
            4 => depth.best(bid).map(|_| ()),
            _ => depth.sum(bid, price).map(|_| ()),
        };
        assert_eq!(answer.err(), expected, "operation {n} of seed {seed}");
        if answer.is_err() || what > 2 {
            assert!(before == depth.places(), "operation {n} of seed {seed} changes a place");
        }
        match answer {
            Ok(()) => {
                assert!(rules::sound(&depth), "operation {n} of seed {seed} leaves a depth that is not sound");
                done += 1;
            }
            Err(1) => unsound += 1,
            Err(_) => refused += 1,
        }
    }
    println!("right: {operations} operations, seed {seed}: {unsound} on depths that are not sound, {refused} refused otherwise, {done} done");
}
