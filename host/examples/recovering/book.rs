//! What stands for a host's messages and its book.
use pollendrift::EventKey;

/// A message of the venue. The numbers stand for prices and sizes; a real host needs none.
#[derive(Clone, Copy, Debug, PartialEq, Eq)]
pub enum Message {
    /// The book of a token as its event of this number left it.
    Snapshot { token: usize, number: u64 },
    /// A change of a token's book; each token's are numbered from 1.
    Event { token: usize, number: u64 },
    /// A trade; others may look the same.
    Print { id: u64 },
}

impl Message {
    /// The same on every connection, and different for different messages.
    pub fn key(&self) -> EventKey {
        EventKey::of_bytes(format!("{self:?}").as_bytes())
    }
}

/// The book: of each token the last event that it includes, or none before its snapshot.
#[derive(Clone, Debug, Default)]
pub struct Book {
    pub last: [Option<u64>; 2],
    /// How many events did not follow the last one. Only the tests look at it.
    pub gaps: u64,
}

impl Book {
    pub fn apply(&mut self, msg: &Message) {
        match *msg {
            Message::Snapshot { token, number } => self.last[token] = Some(number),
            Message::Event { token, number } => {
                // An empty book takes no event. A connection that takes over puts out all that it
                // held, also events of a token from before that token's snapshot, and one that is
                // in line may still owe a snapshot. The snapshot follows and includes them.
                if let Some(last) = &mut self.last[token] {
                    self.gaps += (number != *last + 1) as u64;
                    *last = number;
                }
            }
            Message::Print { .. } => {}
        }
    }

    pub fn clear(&mut self) {
        self.last = [None; 2];
    }
}
