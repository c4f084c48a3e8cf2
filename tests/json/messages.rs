// Messages of all kinds: valid ones in every spelling, and damaged ones.
use crate::random::Random;

const POINTS: [u32; 24] = [
    0x00, 0x01, 0x1F, 0x20, 0x22, 0x2F, 0x5C, 0x61, 0x7E, 0x7F, 0x80, 0xE9, 0x7FF, 0x800, 0xD7FF, 0xE000, 0xFFFD, 0xFFFF, 0x10000, 0x1F600,
    0x10FFFF, 0x2028, 0xFEFF, 0x62,
];

const NUMBERS: [&str; 30] = [
    "0", "1", "-1", "10", "-10", "9223372036854775807", "-9223372036854775808", "-9223372036854775809", "9223372036854775808",
    "18446744073709551615", "18446744073709551616", "18446744073709551625", "100000000000000000000", "-0", "0.0", "-0.0", "1e5", "1E-5", "1e+5",
    "0.5", "12345678901234567890123", "1e400", "-1e999", "3", "42", "1700000000000", "7", "-9223372036854775800", "99", "123456",
];

pub struct Maker {
    r: Random,
    out: Vec<u8>,
    // how often a member of a kind that the rules refuse is made
    faults: bool,
}

impl Maker {
    pub fn new(r: Random) -> Maker {
        Maker { r, out: Vec::new(), faults: false }
    }

    fn ws(&mut self) {
        if self.r.percent(15) {
            for _ in 0..self.r.below(3) {
                let b = self.r.of(b" \t\n\r");
                self.out.push(b);
            }
        }
    }

    fn unit(&mut self, unit: u16) {
        let text = if self.r.percent(50) { format!("\\u{unit:04x}") } else { format!("\\u{unit:04X}") };
        self.out.extend(text.bytes());
    }

    fn point(&mut self, c: char) {
        let short = match c {
            '"' => Some(b'"'),
            '\\' => Some(b'\\'),
            '/' => Some(b'/'),
            '\u{8}' => Some(b'b'),
            '\u{c}' => Some(b'f'),
            '\n' => Some(b'n'),
            '\r' => Some(b'r'),
            '\t' => Some(b't'),
            _ => None,
        };
        let must = (c as u32) < 0x20 || c == '"' || c == '\\';
        if must || self.r.percent(10) {
            match short {
                Some(b) if self.r.percent(60) => self.out.extend([b'\\', b]),
                _ => {
                    let mut units = [0; 2];
                    let units: Vec<u16> = c.encode_utf16(&mut units).to_vec();
                    units.into_iter().for_each(|unit| self.unit(unit));
                }
            }
        } else {
            let mut bytes = [0; 4];
            self.out.extend(c.encode_utf8(&mut bytes).bytes());
        }
    }

    fn string(&mut self, front: usize) {
        self.out.push(b'"');
        self.out.extend(std::iter::repeat_n(b'a', front));
        let long = self.r.percent(5);
        let n = if long { self.r.below(200) } else { self.r.below(8) };
        for _ in 0..n {
            let c = if self.r.percent(70) {
                self.r.between(0x61, 0x64) as u32
            } else if self.r.percent(70) {
                self.r.of(&POINTS)
            } else {
                self.r.below(0x11_0000) as u32
            };
            self.point(char::from_u32(c).unwrap_or('x'));
        }
        self.out.push(b'"');
    }

    fn number(&mut self) {
        let text = if self.faults && self.r.percent(30) {
            self.r.of(&NUMBERS).to_string()
        } else if self.r.percent(60) {
            self.r.below(1000).to_string()
        } else if self.r.percent(50) {
            self.r.next().to_string()
        } else {
            (self.r.next() as i64).min(-1).to_string()
        };
        self.out.extend(text.bytes());
    }

    fn value(&mut self, depth: u64) {
        match self.r.below(if depth == 0 { 4 } else { 7 }) {
            0 => {
                let word: &[u8] = self.r.of(&[&b"null"[..], b"true", b"false"]);
                self.out.extend(word);
            }
            1 => self.number(),
            2 | 3 => self.string(0),
            4 => self.many(b'[', b']', depth, false),
            _ => self.many(b'{', b'}', depth, true),
        }
    }

    fn many(&mut self, open: u8, close: u8, depth: u64, named: bool) {
        self.out.push(open);
        self.ws();
        let n = if self.r.percent(3) { self.r.below(60) } else { self.r.below(6) };
        // names are compared by their first six bytes, and then by what follows
        let front = if self.r.percent(30) { self.r.between(4, 8) as usize } else { 0 };
        for i in 0..n {
            if i > 0 {
                self.out.push(b',');
                self.ws();
            }
            if named {
                self.string(front);
                self.ws();
                self.out.push(b':');
                self.ws();
            }
            self.value(depth - 1);
            self.ws();
        }
        self.out.push(close);
    }

    fn deep(&mut self) {
        let n = self.r.between(14, 19);
        let mut closing = Vec::new();
        for _ in 0..n {
            if self.r.percent(50) {
                self.out.push(b'[');
                closing.push(b']');
            } else {
                self.out.extend(b"{\"k\":");
                closing.push(b'}');
            }
        }
        self.value(2);
        closing.reverse();
        self.out.extend(closing);
    }

    fn damage(&mut self) {
        for _ in 0..self.r.between(1, 3) {
            let n = self.out.len() as u64;
            if n == 0 {
                return;
            }
            let at = self.r.below(n) as usize;
            match self.r.below(6) {
                0 => self.out[at] = self.r.next() as u8,
                1 => {
                    self.out.remove(at);
                }
                2 => {
                    let b = self.r.of(b"[]{},:\"\\0-+.eEu \x00\x1f\x7f\x80\xbf\xc0\xc1\xed\xf0\xf4\xf5\xff");
                    self.out.insert(at, b);
                }
                3 => self.out.truncate(at),
                4 => {
                    let to = (at + self.r.below(8) as usize).min(self.out.len());
                    let part: Vec<u8> = self.out[at..to].to_vec();
                    self.out.splice(at..at, part);
                }
                _ => {
                    let part: &[u8] = self.r.of(&[
                        &b"\\ud800"[..], b"\\udc00", b"\\ud83d\\ude00", b"\\u00", b"\xed\xa0\x80", b"\xc0\xaf", b"\xe0\x80\xaf", b"\xf4\x90\x80\x80", b"-0", b"01", b"1.",
                        b"nul", b"\xef\xbb\xbf", b"\\x",
                    ]);
                    self.out.splice(at..at, part.iter().copied());
                }
            }
        }
    }

    // A message; about half are damaged.
    pub fn message(&mut self) -> &[u8] {
        self.out.clear();
        self.faults = self.r.percent(30);
        self.ws();
        if self.r.percent(6) {
            self.deep();
        } else {
            let depth = self.r.below(6);
            self.value(depth);
        }
        self.ws();
        if self.r.percent(50) {
            self.damage();
        }
        &self.out
    }
}
