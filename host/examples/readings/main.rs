//! Reads 44-byte call records, makes each call on a market with the replay program's limits, and prints a JSON object a line: what the
//! call answered, and what the store reads after it. Support makes a page of them.
//!
//!     python3 ../support/calls.py encode < ../tests/lists/take-over.calls | cargo run --example readings
//!
//! | member | what |
//! |---|---|
//! | `answer` | the replay program's words |
//! | `records` | `[connection, kind, number, key, key, message, times]`; kind 0 snapshot, 1 book, 2 print |
//! | `reports` | `[kind, connection, count of records]`; kind 0 aligned, 1 rebuild, 2 failed |
//! | `base`, `end`, `last` | the log's numbers; when something was applied last, or null |
//! | `keys`, `pairs` | rows in use of the print tables |
//! | `lines` | by rising connection, see `line` |
//! | `counts` | of a print whose key has a row: `applied`, `touched`, `delivered` as `[connection, count]`; else null |
mod calls;
mod layout;

use calls::Call;
use layout::{Counts, Held, Layout};
use pollendrift::{Kind, LineReading, Store, Told};
use std::fmt::Display;
use std::io::{self, BufWriter, Read, Write};
use std::process::ExitCode;

/// An object of members whose values are JSON.
fn object(members: &[(&str, String)]) -> String {
    let member = |(name, value): &(&str, String)| format!("\"{name}\":{value}");
    let members: Vec<String> = members.iter().map(member).collect();
    format!("{{{}}}", members.join(","))
}

/// An array of items that are JSON.
fn array(items: impl IntoIterator<Item = impl Display>) -> String {
    let items: Vec<String> = items.into_iter().map(|item| item.to_string()).collect();
    format!("[{}]", items.join(","))
}

fn or_null(value: Option<impl Display>) -> String {
    value.map_or("null".into(), |value| value.to_string())
}

/// `next` and `due`, the tokens that are due, are of lines in line; `since` and `items`, `[token or null, key, key, message]`, of Waiting
/// and Pending ones; `snapshot`, the snapshot time, of Pending ones; `prints`, `[key, key, message]`, of all. What a line does not have is
/// null or empty.
fn line(line: &LineReading, held: Held) -> String {
    let (kind, next, due) = match line.kind {
        Kind::Waiting => ("Waiting", None, [false; 2]),
        Kind::Pending => ("Pending", None, [false; 2]),
        Kind::InLine { next, due } => ("In line", Some(next), due),
        Kind::Failed => ("Failed", None, [false; 2]),
    };
    let item = |[kind, key0, key1, message]: &[u64; 4]| {
        let token = or_null(kind.checked_sub(1));
        format!("[{token},{key0},{key1},{message}]")
    };
    object(&[
        ("conn", line.conn.to_string()),
        ("kind", format!("\"{kind}\"")),
        ("limit", line.limit.to_string()),
        ("next", or_null(next)),
        ("due", array([0, 1].into_iter().filter(|&token| due[token]))),
        ("since", or_null(held.since)),
        ("snapshot", or_null(held.snapshot)),
        ("items", array(held.items.iter().map(item))),
        ("prints", array(held.prints.iter().map(array))),
    ])
}

fn counts(counts: Counts) -> String {
    object(&[
        ("applied", counts.applied.to_string()),
        ("touched", counts.touched.to_string()),
        ("delivered", array(counts.delivered.iter().map(array))),
    ])
}

/// The object of a call that was made, with its answer and the count of its reports.
fn after(call: &Call, store: &Store, told: Told, reported: usize) -> String {
    let reading = &store.reading();
    let layout = Layout {
        words: store.words(),
        reading,
    };
    let reports = store.report_words(reported).iter().map(array);
    let lines = reading.lines.iter().enumerate();
    let lines = lines.map(|(place, reading)| line(reading, layout.held(place)));
    let of_key = call.print_key().and_then(|key| layout.counts(key));
    object(&[
        ("answer", format!("\"{}\"", calls::answer(told))),
        ("records", array(store.record_words(told).iter().map(array))),
        ("reports", array(reports)),
        ("base", reading.base.to_string()),
        ("end", reading.end.to_string()),
        ("last", or_null(layout.last())),
        ("keys", reading.keys.to_string()),
        ("pairs", reading.pairs.to_string()),
        ("lines", array(lines)),
        ("counts", or_null(of_key.map(counts))),
    ])
}

fn run(mut input: impl Read, out: &mut impl Write) -> io::Result<()> {
    let mut store = Store::new(calls::LIMITS, 0).expect("the limits are in range");
    let mut number = 0_u64;
    loop {
        number += 1;
        let mut record = Vec::with_capacity(calls::BYTES);
        let mut next = input.by_ref().take(calls::BYTES as u64);
        if next.read_to_end(&mut record)? == 0 {
            return Ok(());
        }
        let wrong = |why| io::Error::other(format!("record {number}: {why}"));
        let call = Call::of(&record).map_err(wrong)?;
        let (told, reported) = call.make(&mut store).map_err(wrong)?;
        writeln!(out, "{}", after(&call, &store, told, reported))?;
    }
}

fn main() -> ExitCode {
    let mut out = BufWriter::new(io::stdout().lock());
    let ran = run(io::stdin().lock(), &mut out);
    // the lines first, then why there are no more
    match out.flush().and(ran) {
        Ok(()) => ExitCode::SUCCESS,
        Err(why) => {
            // `eprintln` panics where standard error is closed too
            let _ = writeln!(io::stderr(), "{why}");
            ExitCode::FAILURE
        }
    }
}
