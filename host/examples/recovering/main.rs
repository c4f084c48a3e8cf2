//! Two connections and a market that takes 64 events: both connections have more than that within
//! ten seconds, and are refused. The host of host.rs gets the book right again.
//!
//!     cargo run --example recovering
mod book;
#[allow(dead_code)] // the tests use the rest
mod host;
#[allow(dead_code)] // the tests use the rest
mod venue;

use host::Host;
use pollendrift::Limits;
use std::time::{Duration, Instant};
use venue::Venue;

fn show(when: &str, host: &mut Host, venue: &Venue) {
    for line in host.log.drain(..) {
        println!("    {line}");
    }
    let text = |last: Option<u64>| last.map_or("none".into(), |number| number.to_string());
    let [up, down] = host.book.last.map(text);
    let [venue_up, venue_down] = venue.book();
    println!("{when}: the book is at {up}, {down}, the venue at {venue_up}, {venue_down}");
}

fn main() {
    let limits = Limits {
        lines: 4,
        held: 32,
        events: 64,
        keys: 32,
        pairs: 128,
    };
    let mut host = Host::new(limits, 0).expect("the limits are in range");
    let mut venue = Venue::default();
    let mut now = Instant::now();
    for conn in [1, 2] {
        venue.subscribe(conn, 0, 0);
    }
    venue.deliver_all(&mut host, now);
    now += Duration::from_secs(1);
    venue.tick(&mut host, now);
    show("two connections in line", &mut host, &venue);
    for number in 0..70 {
        venue.event(number % 2);
        if number == 63 {
            venue.deliver_all(&mut host, now);
            show("after 64 events", &mut host, &venue);
        }
    }
    venue.deliver_all(&mut host, now);
    show("after 70 events", &mut host, &venue);
    now += Duration::from_secs(1);
    venue.tick(&mut host, now);
    show("a second later", &mut host, &venue);
    for number in 0..10 {
        venue.event(number % 2);
    }
    venue.deliver_all(&mut host, now);
    show("after 80 events", &mut host, &venue);
    println!("events out of order: {}", host.book.gaps);
}
