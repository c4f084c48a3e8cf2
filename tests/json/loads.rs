// The messages of the benchmark.
use crate::random::Random;

// A price change as the venue sends it, of about a length.
pub fn venue(length: usize) -> Vec<u8> {
    let mut r = Random::new(4);
    let mut out = String::from("{\"market\":\"0x5f65177b394277fd294cd75650044e32ba009a95022d88a0c1d565897d72f8f1\",\"price_changes\":[");
    let tail = "],\"timestamp\":\"1757908892351\",\"event_type\":\"price_change\"}";
    let mut first = true;
    loop {
        let change = format!(
            "{{\"asset_id\":\"713210454{:020}\",\"price\":\"0.{}\",\"size\":\"{}\",\"side\":\"{}\",\"hash\":\"{:016x}{:016x}\",\"best_bid\":\"0.{}\",\"best_ask\":\"0.{}\"}}",
            r.next(),
            r.between(1, 99),
            r.below(100_000),
            r.of(&["BUY", "SELL"]),
            r.next(),
            r.next(),
            r.between(1, 49),
            r.between(50, 99)
        );
        if !first && out.len() + change.len() + tail.len() > length {
            break;
        }
        if !first {
            out.push(',');
        }
        first = false;
        out += &change;
    }
    out += tail;
    out.into_bytes()
}

// Filled up with ws to a length.
fn filled(mut text: String, length: usize) -> Vec<u8> {
    assert!(text.len() <= length, "{} bytes", text.len());
    text.extend(std::iter::repeat_n(' ', length - text.len()));
    text.into_bytes()
}

fn object(names: impl Iterator<Item = String>, length: usize) -> Vec<u8> {
    let mut out = String::from("{");
    for name in names {
        let member = format!("{}\"{name}\":0", if out.len() > 1 { "," } else { "" });
        if out.len() + member.len() + 1 > length {
            break;
        }
        out += &member;
    }
    out.push('}');
    filled(out, length)
}

// Fourteen objects, each the second member of the one around it, with its names out of order, and an array of a kind inside.
fn nested(item: &str, length: usize) -> Vec<u8> {
    let (open, close) = ("{\"b\":0,\"a\":", "}");
    let mut out = open.repeat(14) + "[";
    while out.len() + item.len() + 2 + 14 <= length {
        out += item;
        out.push(',');
    }
    out.pop();
    out.push(']');
    out += &close.repeat(14);
    filled(out, length)
}

// In an order that no rule makes: the branches of a sort that learns an order find none.
fn shuffled(mut names: Vec<String>) -> impl Iterator<Item = String> {
    let mut r = Random::new(5);
    for i in (1..names.len()).rev() {
        names.swap(i, r.below(i as u64 + 1) as usize);
    }
    names.into_iter()
}

// The worst inputs of 32,768 bytes that we thought of.
pub fn worst() -> Vec<(&'static str, Vec<u8>)> {
    const N: usize = 32_768;
    let letters = || (b'#'..=b'[').chain(b']'..=b'~').map(char::from);
    let two = |front: &str| letters().flat_map(|a| letters().map(move |b| format!("{front}{a}{b}"))).collect();
    let string = |unit: &str| format!("\"{}\"", unit.repeat((N - 2) / unit.len()));
    vec![
        ("one string of plain bytes", filled(string("a"), N)),
        ("one string of escaped code points", filled(string("\\u0041"), N)),
        ("one string of surrogate pairs", filled(string("\\ud83d\\ude00"), N)),
        ("one string of two-byte UTF-8", filled(string("é"), N)),
        ("16,383 digits in an array", filled(format!("[{}0]", "0,".repeat(16_382)), N)),
        ("10,922 empty arrays", filled(format!("[{}[]]", "[],".repeat(10_921)), N)),
        ("white space", filled("0".into(), N)),
        ("empty arrays inside 14 objects", nested("[]", N)),
        ("numbers inside 14 objects", nested("123456789", N)),
        ("objects inside 14 objects", nested("{\"b\":0,\"a\":0}", N)),
        ("short names, falling", object((0..10_000u32).rev().map(|i| format!("{i:x}")), N)),
        ("short names, mixed", object((0..10_000u64).map(|i| format!("{:x}", i * 7919 % 10_007)), N)),
        ("short names, shuffled", object(shuffled((0..10_000).map(|i| format!("{i:x}")).collect()), N)),
        ("names of two bytes, shuffled", object(shuffled(two("")), N)),
        ("names of six equal bytes and two, shuffled", object(shuffled(two("pppppp")), N)),
        ("names of a UTF-8 char, shuffled", object(shuffled((0x400..0x1C00).filter_map(char::from_u32).map(String::from).collect()), N)),
        ("one name again and again", object((0..10_000).map(|_| "a".into()), N)),
        ("names of 24 equal bytes and four, falling", object((0..5_000u32).rev().map(|i| format!("{}{i:04}", "p".repeat(24))), N)),
        ("names of 200 equal bytes and four, mixed", object((0..5_000u64).map(|i| format!("{}{:04}", "p".repeat(200), i * 37 % 151)), N)),
        ("escaped names, falling", object((0..5_000u32).rev().map(|i| format!("\\u0070\\u0070{i:04}")), N)),
        ("names of escapes alone, mixed", object((0..5_000u64).map(|i| format!("{}\\u{:04x}", "\\u0070".repeat(8), 0x100 + i * 37 % 617)), N)),
    ]
}
