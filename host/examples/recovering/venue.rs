//! A simulated venue: one stream of book events and prints, which each connection delivers in
//! order and from a place of its own.
use crate::book::Message;
use crate::host::Host;
use pollendrift::ConnId;
use std::collections::{BTreeMap, VecDeque};
use std::time::Instant;

/// What a connection delivered.
#[derive(Clone, Copy, PartialEq, Eq)]
pub enum Delivered {
    /// The subscription that was asked for began.
    Began,
    Message(Message),
}

/// What a connection delivers beside the stream.
#[derive(Clone, Copy)]
enum Beside {
    /// The subscription that was asked for begins.
    Begins,
    /// A snapshot of this token as it is at the connection's place.
    Snapshot(usize),
}

#[derive(Default)]
struct Feed {
    /// The place in the stream of the message that the connection delivers next.
    at: usize,
    /// What comes before the stream's message of a place, by rising place.
    beside: VecDeque<(usize, Beside)>,
}

#[derive(Default)]
pub struct Venue {
    stream: Vec<Message>,
    feeds: BTreeMap<ConnId, Feed>,
}

impl Venue {
    /// Both tokens' last events up to a place of the stream.
    fn book_at(&self, place: usize) -> [u64; 2] {
        let mut last = [0; 2];
        for msg in &self.stream[..place] {
            if let Message::Event { token, number } = *msg {
                last[token] = number;
            }
        }
        last
    }

    pub fn book(&self) -> [u64; 2] {
        self.book_at(self.stream.len())
    }

    /// How often each print was printed.
    pub fn volume(&self) -> BTreeMap<u64, u64> {
        let mut volume = BTreeMap::new();
        for msg in &self.stream {
            if let Message::Print { id } = *msg {
                *volume.entry(id).or_insert(0) += 1;
            }
        }
        volume
    }

    /// A token's next event.
    pub fn event(&mut self, token: usize) {
        let number = self.book()[token] + 1;
        self.stream.push(Message::Event { token, number });
    }

    pub fn print(&mut self, id: u64) {
        self.stream.push(Message::Print { id });
    }

    /// The subscription begins `behind` messages before the stream's end, but not before the
    /// connection's place: what it did not deliver yet comes first. The snapshot of token 0 comes
    /// at once, that of token 1 `apart` messages later.
    pub fn subscribe(&mut self, conn: ConnId, behind: usize, apart: usize) {
        let end = self.stream.len();
        let place = end.saturating_sub(behind);
        let feed = self.feeds.entry(conn).or_insert(Feed {
            at: place,
            beside: VecDeque::new(),
        });
        let place = place.max(feed.at);
        feed.beside.retain(|(at, _)| *at <= place);
        feed.beside.extend([
            (place, Beside::Begins),
            (place, Beside::Snapshot(0)),
            ((place + apart).min(end), Beside::Snapshot(1)),
        ]);
    }

    /// A fault: before its next message the connection delivers this snapshot so many times.
    pub fn stray(&mut self, conn: ConnId, token: usize, times: usize) {
        let feed = self.feeds.get_mut(&conn).expect("a connection");
        let begins = |(_, beside): &(usize, Beside)| matches!(beside, Beside::Begins);
        let behind = feed.beside.iter().position(begins).map_or(0, |i| i + 1);
        let at = feed.beside.get(behind).map_or(feed.at, |(at, _)| *at);
        for _ in 0..times {
            let stray = (at, Beside::Snapshot(token));
            feed.beside.insert(behind, stray);
        }
    }

    /// A fault: the connection passes over its next message.
    pub fn lose(&mut self, conn: ConnId) {
        self.feeds.get_mut(&conn).expect("a connection").at += 1;
    }

    pub fn close(&mut self, conn: ConnId) {
        self.feeds.remove(&conn);
    }

    /// What the connection delivers next goes to the host. None where it has delivered all.
    pub fn deliver(&mut self, conn: ConnId, host: &mut Host, now: Instant) -> Option<Delivered> {
        let feed = self.feeds.get_mut(&conn)?;
        let at = feed.at;
        let due = feed.beside.front().is_some_and(|(place, _)| *place <= at);
        let beside = if due { feed.beside.pop_front() } else { None };
        let msg = match beside {
            Some((_, Beside::Begins)) => {
                host.begins(conn, now);
                return Some(Delivered::Began);
            }
            Some((_, Beside::Snapshot(token))) => {
                let number = self.book_at(at).get(token).copied().unwrap_or(0);
                Message::Snapshot { token, number }
            }
            None => {
                let msg = *self.stream.get(at)?;
                feed.at += 1;
                msg
            }
        };
        host.message(conn, &msg, now);
        Some(Delivered::Message(msg))
    }

    /// Every connection delivers all that there is, one after the other.
    pub fn deliver_all(&mut self, host: &mut Host, now: Instant) {
        for conn in self.feeds.keys().copied().collect::<Vec<_>>() {
            while self.deliver(conn, host, now).is_some() {}
        }
    }

    /// The host's tick; the venue does what it asks for and delivers all.
    pub fn tick(&mut self, host: &mut Host, now: Instant) {
        for conn in host.tick(now) {
            self.subscribe(conn, 0, 0);
        }
        self.deliver_all(host, now);
    }
}
