// Request 4 once more, with nothing of the proved code: a text is read into tokens and those into a tree, by what std has for UTF-8, code
// points, numbers and order.
use std::collections::BTreeMap;

enum Token {
    Mark(char),
    Text(String),
    Number(String),
    Null,
    Bool(bool),
}

enum Tree {
    Null,
    Bool(bool),
    Number(String),
    Text(String),
    Array(Vec<Tree>),
    Object(BTreeMap<Vec<u8>, Tree>),
}

// The fault of a number or a bracket: its place and the answer.
type Fault = (usize, u64);

fn hex(chars: &[char], at: usize) -> Option<u32> {
    let four: String = chars.get(at..at + 4)?.iter().collect();
    if four.chars().all(|c| c.is_ascii_hexdigit()) {
        u32::from_str_radix(&four, 16).ok()
    } else {
        None
    }
}

fn text(chars: &[char], at: &mut usize) -> Option<String> {
    let mut out = String::new();
    loop {
        let c = *chars.get(*at)?;
        *at += 1;
        match c {
            '"' => return Some(out),
            '\\' => {
                let e = *chars.get(*at)?;
                *at += 1;
                match e {
                    '"' | '\\' | '/' => out.push(e),
                    'b' => out.push('\u{8}'),
                    'f' => out.push('\u{c}'),
                    'n' => out.push('\n'),
                    'r' => out.push('\r'),
                    't' => out.push('\t'),
                    'u' => {
                        let unit = hex(chars, *at)? as u16;
                        *at += 4;
                        let mut units = vec![unit];
                        if (0xD800..0xDC00).contains(&unit) && chars.get(*at) == Some(&'\\') && chars.get(*at + 1) == Some(&'u') {
                            units.push(hex(chars, *at + 2)? as u16);
                            *at += 6;
                        }
                        out.push_str(&String::from_utf16(&units).ok()?);
                    }
                    _ => return None,
                }
            }
            c if (c as u32) < 0x20 => return None,
            c => out.push(c),
        }
    }
}

fn digits(chars: &[char], at: &mut usize) -> usize {
    let from = *at;
    while chars.get(*at).is_some_and(|c| c.is_ascii_digit()) {
        *at += 1;
    }
    *at - from
}

fn number(chars: &[char], at: &mut usize) -> Option<String> {
    let from = *at;
    if chars[*at] == '-' {
        *at += 1;
    }
    let first = *at;
    let whole = digits(chars, at);
    if whole == 0 || (whole > 1 && chars[first] == '0') {
        return None;
    }
    if chars.get(*at) == Some(&'.') {
        *at += 1;
        if digits(chars, at) == 0 {
            return None;
        }
    }
    if matches!(chars.get(*at), Some('e' | 'E')) {
        *at += 1;
        if matches!(chars.get(*at), Some('+' | '-')) {
            *at += 1;
        }
        if digits(chars, at) == 0 {
            return None;
        }
    }
    Some(chars[from..*at].iter().collect())
}

fn tokens(chars: &[char]) -> Option<Vec<(usize, Token)>> {
    let mut out = Vec::new();
    let mut at = 0;
    while at < chars.len() {
        let from = at;
        let token = match chars[at] {
            ' ' | '\t' | '\n' | '\r' => {
                at += 1;
                continue;
            }
            c @ ('[' | ']' | '{' | '}' | ',' | ':') => {
                at += 1;
                Token::Mark(c)
            }
            '"' => {
                at += 1;
                Token::Text(text(chars, &mut at)?)
            }
            '-' | '0'..='9' => Token::Number(number(chars, &mut at)?),
            _ => {
                let word: String = chars[at..].iter().take_while(|c| c.is_ascii_alphabetic()).collect();
                at += word.len();
                match word.as_str() {
                    "null" => Token::Null,
                    "true" => Token::Bool(true),
                    "false" => Token::Bool(false),
                    _ => return None,
                }
            }
        };
        out.push((from, token));
    }
    Some(out)
}

// An array or object that is open: what it holds, and the name that waits for its value.
enum Open {
    Array(Vec<Tree>),
    Object(BTreeMap<Vec<u8>, Tree>, Option<String>),
}

fn allowed(number: &str) -> bool {
    number != "-0" && (number.parse::<i64>().is_ok() || number.parse::<u64>().is_ok())
}

// What may come next.
#[derive(Clone, Copy, PartialEq)]
enum Want {
    Value,
    ValueOrEnd,
    NameOrEnd,
    Name,
    Colon,
    CommaOrEnd,
}

fn tree(tokens: Vec<(usize, Token)>, fault: &mut Option<Fault>) -> Option<Tree> {
    let mut open: Vec<Open> = Vec::new();
    let mut whole = None;
    let mut want = Want::Value;
    for (place, token) in tokens {
        if whole.is_some() {
            return None;
        }
        let mut found = |number| {
            fault.get_or_insert((place, number));
        };
        let value = match token {
            Token::Mark(':') if want == Want::Colon => {
                want = Want::Value;
                continue;
            }
            Token::Mark(',') if want == Want::CommaOrEnd => {
                want = match open.last()? {
                    Open::Array(_) => Want::Value,
                    Open::Object(..) => Want::Name,
                };
                continue;
            }
            Token::Mark(c @ ('[' | '{')) if matches!(want, Want::Value | Want::ValueOrEnd) => {
                if open.len() >= 16 {
                    found(17);
                }
                if c == '[' {
                    open.push(Open::Array(Vec::new()));
                    want = Want::ValueOrEnd;
                } else {
                    open.push(Open::Object(BTreeMap::new(), None));
                    want = Want::NameOrEnd;
                }
                continue;
            }
            Token::Mark(']') if matches!(want, Want::ValueOrEnd | Want::CommaOrEnd) => match open.pop()? {
                Open::Array(items) => Tree::Array(items),
                Open::Object(..) => return None,
            },
            Token::Mark('}') if matches!(want, Want::NameOrEnd | Want::CommaOrEnd) => match open.pop()? {
                Open::Object(members, None) => Tree::Object(members),
                _ => return None,
            },
            Token::Mark(_) => return None,
            Token::Text(name) if matches!(want, Want::Name | Want::NameOrEnd) => {
                match open.last_mut()? {
                    Open::Object(_, waiting) => *waiting = Some(name),
                    Open::Array(_) => return None,
                }
                want = Want::Colon;
                continue;
            }
            _ if !matches!(want, Want::Value | Want::ValueOrEnd) => return None,
            Token::Text(text) => Tree::Text(text),
            Token::Number(number) => {
                if !allowed(&number) {
                    found(16);
                }
                Tree::Number(number)
            }
            Token::Null => Tree::Null,
            Token::Bool(b) => Tree::Bool(b),
        };
        match open.last_mut() {
            None => whole = Some(value),
            Some(Open::Array(items)) => items.push(value),
            Some(Open::Object(members, waiting)) => {
                members.insert(waiting.take()?.into_bytes(), value);
            }
        }
        want = Want::CommaOrEnd;
    }
    if open.is_empty() {
        whole
    } else {
        None
    }
}

fn write(tree: &Tree, out: &mut Vec<u8>) {
    let mut marked = |tag: u8, text: &str| {
        out.push(tag);
        out.extend(text.bytes());
        out.push(0xFF);
    };
    match tree {
        Tree::Null => out.push(0),
        Tree::Bool(b) => out.extend([1, u8::from(*b)]),
        Tree::Number(text) => marked(2, text),
        Tree::Text(text) => marked(3, text),
        Tree::Array(items) => {
            out.push(4);
            out.extend((items.len() as u64).to_le_bytes());
            items.iter().for_each(|item| write(item, out));
        }
        Tree::Object(members) => {
            out.push(5);
            out.extend((members.len() as u64).to_le_bytes());
            for (name, item) in members {
                out.extend(name);
                out.push(0xFF);
                write(item, out);
            }
        }
    }
}

// The canonical bytes of a message, or the number of its refusal.
pub fn canonical(message: &[u8]) -> Result<Vec<u8>, u64> {
    if message.len() > 32_768 {
        return Err(15);
    }
    let chars: Vec<char> = std::str::from_utf8(message).map_err(|_| 15u64)?.chars().collect();
    let mut fault = None;
    let tree = tree(tokens(&chars).ok_or(15u64)?, &mut fault);
    let Some(tree) = tree else { return Err(15) };
    if let Some((_, number)) = fault {
        drop_deep(tree);
        return Err(number);
    }
    let mut out = Vec::new();
    write(&tree, &mut out);
    Ok(out)
}

// A deep tree is taken apart without recursion.
fn drop_deep(tree: Tree) {
    let mut left = vec![tree];
    while let Some(tree) = left.pop() {
        match tree {
            Tree::Array(items) => left.extend(items),
            Tree::Object(members) => left.extend(members.into_values()),
            _ => {}
        }
    }
}
