// The original: as shipped, with its lines in a HashMap, and as the comparison has it, with its lines in a BTreeMap.
use crate::calls::{self, Call, Side, Timed};
use pollendrift::Limits;

macro_rules! original {
    ($side:ident, $module:ident) => {
        pub mod $module {
            use super::*;
            use crate::$module::merge::{Applied, EventKey, Expired, Lost, MarketMerge, Step};

            // with the limit of every line
            pub struct $side(MarketMerge, usize);

            #[inline]
            fn sum(out: Vec<Applied>) -> u64 {
                out.iter().map(|a| a.msg).sum()
            }

            #[inline]
            fn step(step: Step) -> u64 {
                match step {
                    Step::Apply(out) => calls::APPLY + sum(out),
                    Step::Duplicate => calls::DUPLICATE,
                    Step::Held => calls::HELD,
                    Step::Ignored => calls::IGNORED,
                    Step::Failed => calls::FAILED,
                    Step::Diverged => panic!("a load diverges"),
                }
            }

            fn lost(lost: Lost) -> u64 {
                match lost {
                    Lost::Kept => calls::KEPT,
                    Lost::Gone => calls::GONE,
                    Lost::Rebuild(out) => calls::REBUILD + sum(out),
                }
            }

            fn expired(expired: Expired) -> u64 {
                match expired {
                    Expired::Aligned(_, out) => sum(out),
                    Expired::Rebuild(_, out) => sum(out),
                    Expired::Failed(conn) => conn,
                }
            }

            impl Side for $side {
                fn new(limits: Limits) -> Self {
                    $side(MarketMerge::default(), limits.held as usize)
                }

                #[inline]
                fn call(&mut self, c: &Timed) -> u64 {
                    let m = &mut self.0;
                    match c.call {
                        Call::Book(key) => step(m.book_event(c.conn, EventKey(key.0, key.1), &c.message, c.at)),
                        Call::Print(key) => step(m.other(c.conn, EventKey(key.0, key.1), &c.message, c.at)),
                        Call::Snapshot(token) => step(m.snapshot(c.conn, token, &c.message, c.at)),
                        Call::Tick => m.tick(c.at, &|_| false).into_iter().map(expired).sum(),
                        Call::Drop => lost(m.drop_conn(c.conn, c.at)),
                        Call::Subscribe => {
                            m.subscribe(c.conn, self.1, c.at);
                            0
                        }
                    }
                }
            }
        }
    };
}

original!(Hashed, hashed);
original!(Ordered, ordered);
