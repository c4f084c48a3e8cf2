// Which calls make a line fail by its own limit (request 5), told from the market before the call.
use crate::reading::{Conn, Line, Market};
use crate::words::Call;

fn holding(m: &Market, conn: u64) -> Option<&Conn> {
    m.lines.get(&conn).filter(|c| matches!(c.line, Line::Waiting { .. } | Line::Pending { .. }))
}

// A book event: the connection, if its line holds its limit of items or more.
pub fn by_items<'a>(m: &'a Market, call: &Call) -> Option<&'a Conn> {
    let Call::Book { conn, .. } = call else { return None };
    holding(m, *conn).filter(|c| c.line.items().len() as u64 >= c.limit)
}

// A print that has to be held and is not yet: the connection, if its line holds its limit of prints or more.
pub fn by_prints<'a>(m: &'a Market, call: &Call) -> Option<&'a Conn> {
    let Call::Print { conn, key, .. } = call else { return None };
    let applied = m.keys.get(key).map_or(0, |(applied, _)| *applied);
    let delivered = m.counts.get(&(*key, *conn)).map_or(0, |delivered| *delivered) + 1;
    let held = |c: &Conn| c.held.iter().any(|(k, _)| k == key);
    holding(m, *conn).filter(|c| delivered > applied && !held(c) && c.held.len() as u64 >= c.limit)
}
