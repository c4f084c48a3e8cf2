// The messages of corpus.txt with their answers: the proved calls and the reference. PATH-OF-corpus.txt
#[path = "exported.rs"]
#[allow(dead_code)]
mod exported;
#[path = "reference.rs"]
mod reference;

// %XX is a byte, %<N> the eight bytes of a length, %(N*TEXT) a text N times; other characters stand for their bytes.
fn bytes(text: &str) -> Vec<u8> {
    let mut out = Vec::new();
    let mut rest = text;
    while let Some(c) = rest.chars().next() {
        if c != '%' {
            out.extend(c.to_string().bytes());
            rest = &rest[c.len_utf8()..];
        } else if let Some(inner) = rest.strip_prefix("%(") {
            let end = inner.find(')').expect("a closing parenthesis");
            let (n, part) = inner[..end].split_once('*').expect("a count");
            out.extend(bytes(part).repeat(n.parse().expect("a count")));
            rest = &inner[end + 1..];
        } else if let Some(inner) = rest.strip_prefix("%<") {
            let end = inner.find('>').expect("a closing bracket");
            out.extend(inner[..end].parse::<u64>().expect("a length").to_le_bytes());
            rest = &inner[end + 1..];
        } else {
            out.push(u8::from_str_radix(&rest[1..3], 16).expect("two digits"));
            rest = &rest[3..];
        }
    }
    out
}

fn main() {
    let path = std::env::args().nth(1).expect("the path of corpus.txt");
    let lines = std::fs::read_to_string(path).expect("a readable corpus");
    let mut count = 0;
    let mut wrong = 0;
    for line in lines.lines().filter(|l| !l.is_empty() && !l.starts_with('#')) {
        let (message, answer) = line.split_once('\t').expect("a message, a tab and an answer");
        let message = bytes(message);
        let expected = match answer.strip_prefix('!') {
            Some(number) => Err(number.parse().expect("a number")),
            None => Ok(bytes(answer)),
        };
        let mut out = vec![0; exported::ROOM];
        let here = exported::canonical(&message, &mut out).map(|n| out[..n].to_vec());
        let number = expected.as_ref().err().copied().unwrap_or(0);
        if here != expected || reference::canonical(&message) != expected || exported::refusal(&message) != number {
            println!("DIFFERENT: {line}: {here:?}, the reference {:?}", reference::canonical(&message));
            wrong += 1;
        }
        count += 1;
    }
    if wrong > 0 {
        std::process::exit(1);
    }
    println!("right: {count} messages of the corpus");
}
