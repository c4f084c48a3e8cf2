// A list as text: the form that support/calls.py reads, as far as it has one.
use crate::calling::Manner;
use crate::lists::{Setup, Step};
use crate::words::Call;

// The replay program passes H, so that a subscription for it names no limit.
pub fn line(step: &Step, for_replay: bool) -> String {
    let what = match &step.call {
        Call::Setup { limits, start } => format!("setup {:?} start {start}", limits.all()),
        Call::Subscribe { conn, .. } if for_replay => format!("subscribe {conn}"),
        Call::Subscribe { conn, limit } => format!("subscribe {conn} limit {limit}"),
        Call::Snapshot { conn, token, message } => format!("snapshot {conn} token {token} message {message}"),
        Call::Book { conn, key, message } => format!("book {conn} {} {} message {message}", key.0, key.1),
        Call::Print { conn, key, message } => format!("print {conn} {} {} message {message}", key.0, key.1),
        Call::Drop { conn } => format!("drop {conn}"),
        Call::Promote => "promote".into(),
        Call::Reset => "reset".into(),
        Call::Tick => match step.manner {
            Manner::Answer(a) => format!("tick view {a}"),
            _ => "tick".into(),
        },
        Call::InLine { conn } => format!("in_line {conn}"),
        Call::AnyInLine => "any_in_line".into(),
        Call::Servable => "servable".into(),
        Call::View { conn } => format!("view {conn}"),
    };
    format!("{what} at {}", step.t)
}

// With what it starts from and, behind a call, how it was lent.
pub fn list(s: &Setup, steps: &[Step]) -> String {
    let x = s.limits;
    let mut out = format!("# L {} H {} G {} C {} D {} start {}", x.l, x.h, x.g, x.c, x.d, s.start);
    out += &format!(", views by function {} of salt {}", s.view, s.salt);
    if let Some((m, _)) = &s.from {
        out += &format!("\n# from {m:?}");
    }
    for step in steps {
        out += &format!("\n{}", line(step, false));
        if !matches!(step.manner, Manner::Right | Manner::Answer(_)) {
            out += &format!(" # lent: {:?}", step.manner);
        }
    }
    out + "\n"
}

// A call of a stored list, where a subscription that names no limit has this one; none in an empty line.
pub fn parse(line: &str, limit: u64) -> Option<Step> {
    let words: Vec<&str> = line.split('#').next()?.split_whitespace().collect();
    let number = |word: &str| -> u64 { word.parse().unwrap_or_else(|_| panic!("no number in {line:?}")) };
    let (what, t) = match words[..] {
        [] => return None,
        [ref what @ .., "at", t] => (what, number(t)),
        _ => panic!("no call: {line:?}"),
    };
    let mut manner = Manner::Right;
    let call = match what {
        ["subscribe", conn] => Call::Subscribe { conn: number(conn), limit },
        ["subscribe", conn, "limit", limit] => Call::Subscribe { conn: number(conn), limit: number(limit) },
        ["snapshot", conn, "token", token, "message", message] => {
            Call::Snapshot { conn: number(conn), token: number(token), message: number(message) }
        }
        ["book", conn, a, b, "message", message] => {
            Call::Book { conn: number(conn), key: (number(a), number(b)), message: number(message) }
        }
        ["print", conn, a, b, "message", message] => {
            Call::Print { conn: number(conn), key: (number(a), number(b)), message: number(message) }
        }
        ["drop", conn] => Call::Drop { conn: number(conn) },
        ["promote"] => Call::Promote,
        ["reset"] => Call::Reset,
        ["tick", "view", a] => {
            manner = Manner::Answer(number(a));
            Call::Tick
        }
        _ => panic!("no call: {line:?}"),
    };
    Some(Step { call, t, manner })
}
