// The drop-in of host/.
use crate::calls::{self, Call, Side, Timed};
use pollendrift::{Applied, EventKey, Expired, Limits, Lost, MarketMerge, Step};

pub struct DropIn(MarketMerge<u64>);

#[inline]
fn sum(out: Vec<Applied<u64>>) -> u64 {
    out.iter().map(|a| a.msg).sum()
}

#[inline]
fn step(step: Step<Applied<u64>>) -> u64 {
    match step {
        Step::Apply(out) => calls::APPLY + sum(out),
        Step::Duplicate => calls::DUPLICATE,
        Step::Held => calls::HELD,
        Step::Ignored => calls::IGNORED,
        Step::Failed => calls::FAILED,
        Step::Diverged => panic!("a load diverges"),
        Step::Refused(why) => panic!("a load is refused: {why:?}"),
    }
}

fn lost(lost: Lost<Applied<u64>>) -> u64 {
    match lost {
        Lost::Kept => calls::KEPT,
        Lost::Gone => calls::GONE,
        Lost::Rebuild(out) => calls::REBUILD + sum(out),
    }
}

fn expired(expired: Expired<Applied<u64>>) -> u64 {
    match expired {
        Expired::Aligned(_, out) => sum(out),
        Expired::Rebuild(_, out) => sum(out),
        Expired::Failed(conn) => conn,
    }
}

impl Side for DropIn {
    fn new(limits: Limits) -> Self {
        DropIn(MarketMerge::new(limits).expect("limits in range"))
    }

    #[inline]
    fn call(&mut self, c: &Timed) -> u64 {
        let m = &mut self.0;
        match c.call {
            Call::Book(key) => step(m.book_event(c.conn, EventKey::new(key.0, key.1), &c.message, c.at)),
            Call::Print(key) => step(m.other(c.conn, EventKey::new(key.0, key.1), &c.message, c.at)),
            Call::Snapshot(token) => step(m.snapshot(c.conn, token, &c.message, c.at)),
            Call::Tick => m.tick(c.at, &|_| false).into_iter().map(expired).sum(),
            Call::Drop => lost(m.drop_conn(c.conn, c.at)),
            Call::Subscribe => {
                m.subscribe(c.conn, c.at).expect("a free line");
                0
            }
        }
    }
}
