// edit ORIGINAL OUT [hashed|counts-stay]: writes the original feed_merge.rs with the edits that the comparison needs; `hashed` keeps
// its lines in a HashMap, as it has them, and `counts-stay` its counts at a subscription, as they were before request 1. Each edit has
// to find its text the number of times that it names, so that an original of another shape is not compared by mistake.
use std::process::exit;

const SUBSCRIBE: &str = "    pub fn subscribe(&mut self, conn: ConnId, now: Instant) {\n";
const REMOVAL: &str = "        for copies in self.others.values_mut() { copies.delivered.remove(&conn); }\n";
const LIMITED: &str = "    pub fn subscribe(&mut self, conn: ConnId, limit: usize, now: Instant) {\n";
const DROP: &str = "    pub fn drop_conn(&mut self, conn: ConnId, now: Instant) -> Lost {\n";

fn fail(why: &str) -> ! {
    eprintln!("edit: {why}");
    exit(2)
}

fn replace(text: &mut String, times: usize, old: &str, new: &str) {
    let found = text.matches(old).count();
    if found != times {
        fail(&format!("found {found} times, not {times}: {old:?}"));
    }
    *text = text.replace(old, new);
}

// Removes from `from` up to `to`, which stays.
fn cut(text: &mut String, from: &str, to: &str) {
    let Some(a) = text.find(from) else { fail(&format!("not found: {from:?}")) };
    let Some(e) = text[a..].find(to) else { fail(&format!("not found: {to:?}")) };
    text.replace_range(a..a + e, "");
}

fn main() {
    let args: Vec<String> = std::env::args().collect();
    let form = args.get(3).map_or("", String::as_str);
    let (hashed, counts_stay) = (form == "hashed", form == "counts-stay");
    if args.len() != 3 && !(args.len() == 4 && (hashed || counts_stay)) {
        fail("usage: edit ORIGINAL OUT [hashed|counts-stay]");
    }
    let mut text = std::fs::read_to_string(&args[1]).unwrap_or_else(|e| fail(&format!("{}: {e}", args[1])));
    let t = &mut text;
    // a message is a number, a time a number of milliseconds, a warning nothing
    replace(t, 1, "use serde_json::Value;\n", "use super::shim::{tracing, Instant, Value};\n");
    replace(t, 1, "    hash::Hasher,\n    time::{Duration, Instant},\n", "    time::Duration,\n");
    // keys are given, not hashed
    cut(t, "/// The second hash starts with this.", "/// A message to apply to the market's book.");
    if !hashed {
        // lines by rising connection
        cut(t, "#[cfg(not(test))]\ntype Lines", "/// One market's merge");
        replace(t, 1, "/// One market's merge", "type Lines = std::collections::BTreeMap<ConnId, Line>;\n\n/// One market's merge");
    }
    if !counts_stay {
        // request 1: subscribe removes the connection's delivered counts
        replace(t, 1, SUBSCRIBE, &format!("{SUBSCRIBE}{REMOVAL}"));
    }
    // request 5: each line has a held limit of its own, from its subscription until its connection is dropped
    let limits = "    pub limits: std::collections::BTreeMap<ConnId, usize>,\n";
    replace(t, 1, "pub struct MarketMerge {\n", &format!("pub struct MarketMerge {{\n{limits}"));
    replace(t, 1, SUBSCRIBE, &format!("{LIMITED}        self.limits.insert(conn, limit);\n"));
    replace(t, 1, DROP, &format!("{DROP}        self.limits.remove(&conn);\n"));
    replace(t, 1, "items.len() >= MAX_HELD", "items.len() >= self.limits[&conn]");
    replace(t, 1, "held.len() >= MAX_HELD", "held.len() >= self.limits[&conn]");
    // fields readable, and base set to the start number
    replace(t, 1, "pub struct EventKey(u64, u64);", "pub struct EventKey(pub u64, pub u64);");
    replace(t, 1, "\nenum Item {", "\npub enum Item {");
    replace(t, 1, "\nenum Line {", "\npub enum Line {");
    replace(t, 1, "\nstruct Copies {", "\npub struct Copies {");
    for field in ["applied: u32,", "delivered: HashMap<ConnId, u32>,", "touched: Instant,"] {
        replace(t, 1, &format!("    {field}\n"), &format!("    pub {field}\n"));
    }
    for field in [
        "log: VecDeque<",
        "base: u64,",
        "positions: HashMap<",
        "others: HashMap<",
        "held_prints: HashMap<",
        "lines: Lines,",
        "last_applied: Option<",
    ] {
        replace(t, 1, &format!("\n    {field}"), &format!("\n    pub {field}"));
    }
    replace(t, 1, "\n    fn view(&self", "\n    pub fn view(&self");
    std::fs::write(&args[2], text).unwrap_or_else(|e| fail(&format!("{}: {e}", args[2])));
}
