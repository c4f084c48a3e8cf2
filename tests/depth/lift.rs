// lift ORIGINAL OUT: writes `Depth` of the original market_data.rs, with all its functions public. Each text has to be found once, so
// that an original of another shape is not compared by mistake.
use std::process::exit;

const FROM: &str = "#[derive(Clone, Debug, Default, PartialEq)]\npub struct Depth {";
const TO: &str = "#[derive(Clone, Debug)]\nstruct Quote {";

fn fail(why: &str) -> ! {
    eprintln!("lift: {why}");
    exit(2)
}

fn once(text: &str, part: &str) -> usize {
    match text.match_indices(part).collect::<Vec<_>>()[..] {
        [(at, _)] => at,
        ref found => fail(&format!("found {} times, not once: {part:?}", found.len())),
    }
}

fn main() {
    let args: Vec<String> = std::env::args().collect();
    let [_, original, out] = &args[..] else { fail("usage: lift ORIGINAL OUT") };
    let text = std::fs::read_to_string(original).unwrap_or_else(|e| fail(&format!("{original}: {e}")));
    let mut depth = text[once(&text, FROM)..once(&text, TO)].to_string();
    for name in ["set", "trim"] {
        let private = format!("\n    fn {name}(&mut self");
        once(&depth, &private);
        depth = depth.replace(&private, &format!("\n    pub fn {name}(&mut self"));
    }
    let text = format!("use std::collections::BTreeMap;\n\n{depth}");
    std::fs::write(out, text).unwrap_or_else(|e| fail(&format!("{out}: {e}")));
}
