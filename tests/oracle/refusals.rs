// Which calls 01 refuses ("Numbered refusals"), told from the market before the call and from what is lent. The original has no
// limits: a call that is refused is not made there.
use crate::exported::Lent;
use crate::failing;
use crate::reading::{Line, Market};
use crate::words::{Call, Limits};

// 0: not refused. No market: the words are no sound store.
pub fn expected(m: Option<&Market>, x: Limits, call: &Call, lent: &Lent) -> u64 {
    let wrong = by_call(call);
    match (call, m) {
        (Call::Setup { limits, .. }, _) if wrong == 0 && lent.store.len() < limits.store() => 1,
        (Call::Setup { .. }, _) => wrong,
        (_, None) => 1,
        (Call::Tick, Some(m)) if lent.answers.len() != m.lines.len() || lent.answers.iter().any(|&a| a > 1) => 11,
        _ if wrong != 0 => wrong,
        _ if short(x, call, lent) => 3,
        (_, Some(m)) => by_state(m, x, call),
    }
}

// What is refused whatever is lent: limits out of range, a token above 1.
pub fn by_call(call: &Call) -> u64 {
    match call {
        Call::Setup { limits, .. } if !limits.in_range() => 2,
        Call::Snapshot { token, .. } if *token > 1 => 10,
        _ => 0,
    }
}

// A list that is shorter than the call needs.
fn short(x: Limits, call: &Call, lent: &Lent) -> bool {
    let out = lent.out.len() < x.records();
    match call {
        Call::Snapshot { .. } | Call::Book { .. } | Call::Print { .. } | Call::Drop { .. } | Call::Promote => out,
        Call::Tick => out || lent.reports.len() < x.reports(),
        Call::View { .. } => lent.list.len() < x.items(),
        _ => false,
    }
}

// What the market refuses where all that is lent is right.
pub fn by_state(m: &Market, x: Limits, call: &Call) -> u64 {
    let full = if m.log.len() as u64 + m.items() >= x.g {
        5
    } else if m.end() as u128 + m.items() as u128 >= u64::MAX as u128 {
        9
    } else {
        0
    };
    match call {
        Call::Subscribe { limit, .. } if *limit == 0 || *limit > x.h => 18,
        Call::Subscribe { conn, .. } if !m.lines.contains_key(conn) && m.lines.len() as u64 == x.l => 4,
        Call::Snapshot { conn, .. } => match m.line(*conn) {
            Some(Line::Waiting { items, .. }) if items.len() == x.items() => 6,
            Some(Line::Waiting { .. }) => full,
            _ => 0,
        },
        Call::Book { .. } if failing::by_items(m, call).is_some() => 0,
        Call::Book { conn, .. } => match m.line(*conn) {
            Some(Line::Waiting { .. } | Line::Pending { .. }) => full,
            Some(Line::InLine { next, .. }) if *next >= m.base && *next >= m.end() => full,
            _ => 0,
        },
        Call::Print { conn, key, .. } => match m.line(*conn) {
            None | Some(Line::Failed) => 0,
            _ if !m.keys.contains_key(key) && m.keys.len() as u64 == x.c => 7,
            _ if !m.counts.contains_key(&(*key, *conn)) && m.counts.len() as u64 == x.d => 7,
            _ if m.counts.get(&(*key, *conn)) == Some(&(u32::MAX as u64)) => 8,
            _ => 0,
        },
        _ => 0,
    }
}
