//! JSON, read and written.

use crate::text::{Place, Position, Ruler, find_either};
use std::borrow::Cow;
use std::io::Write;

const MOST_NESTED: u32 = 127;

/// A value. Of a number only whether it is an integer of 64 bits, and which, is kept.
pub enum Json<'b> {
    Null,
    Bool(bool),
    Number(Option<i64>),
    Text(Cow<'b, str>),
    Array(Vec<Json<'b>>),
    Object(Vec<(Cow<'b, str>, Json<'b>)>),
}

impl<'b> Json<'b> {
    pub fn read(body: &'b [u8]) -> Option<Json<'b>> {
        let mut reader = Reader { text: std::str::from_utf8(body).ok()?, at: 0 };
        let value = reader.value(0)?;
        reader.peek().is_none().then_some(value)
    }

    /// The last member of that name.
    pub fn get(&self, key: &str) -> Option<&Json<'b>> {
        match self {
            Json::Object(members) => members.iter().rev().find(|(name, _)| name == key).map(|(_, value)| value),
            _ => None,
        }
    }

    /// Takes the value of a member out.
    pub fn take(&mut self, key: &str) -> Option<Json<'b>> {
        match self {
            Json::Object(members) => {
                let (_, value) = members.iter_mut().rev().find(|(name, _)| name == key)?;
                Some(std::mem::replace(value, Json::Null))
            }
            _ => None,
        }
    }

    pub fn text(&self) -> Option<&str> {
        match self {
            Json::Text(text) => Some(text),
            _ => None,
        }
    }

    pub fn integer(&self) -> Option<i64> {
        match self {
            Json::Number(number) => *number,
            _ => None,
        }
    }

    pub fn position(&self) -> Option<Position> {
        let count = |key| {
            let number = self.get(key)?.integer().filter(|number| *number >= 0)?;
            Some(u32::try_from(number).unwrap_or(u32::MAX))
        };
        Some(Position { line: count("line")?, character: count("character")? })
    }
}

struct Reader<'b> {
    text: &'b str,
    at: usize,
}

impl<'b> Reader<'b> {
    fn peek(&mut self) -> Option<u8> {
        let rest = &self.text.as_bytes()[self.at..];
        self.at += rest.iter().position(|byte| !matches!(byte, b' ' | b'\n' | b'\r' | b'\t')).unwrap_or(rest.len());
        self.text.as_bytes().get(self.at).copied()
    }

    fn eat(&mut self, byte: u8) -> Option<()> {
        (self.peek()? == byte).then(|| self.at += 1)
    }

    fn word(&mut self, word: &str, value: Json<'b>) -> Option<Json<'b>> {
        self.text[self.at..].starts_with(word).then(|| self.at += word.len())?;
        Some(value)
    }

    fn value(&mut self, depth: u32) -> Option<Json<'b>> {
        match self.peek()? {
            b'{' => {
                let member = |reader: &mut Self| {
                    reader.peek()?;
                    let name = reader.string()?;
                    reader.eat(b':')?;
                    Some((name, reader.value(depth + 1)?))
                };
                self.list(depth, b'}', member).map(Json::Object)
            }
            b'[' => self.list(depth, b']', |reader| reader.value(depth + 1)).map(Json::Array),
            b'"' => self.string().map(Json::Text),
            b't' => self.word("true", Json::Bool(true)),
            b'f' => self.word("false", Json::Bool(false)),
            b'n' => self.word("null", Json::Null),
            _ => self.number().map(Json::Number),
        }
    }

    /// What stands between two brackets, of which the first comes next, with commas between.
    fn list<T>(&mut self, depth: u32, end: u8, mut item: impl FnMut(&mut Self) -> Option<T>) -> Option<Vec<T>> {
        let mut items = Vec::new();
        self.at += 1;
        if depth == MOST_NESTED {
            return None;
        }
        if self.peek()? == end {
            self.at += 1;
            return Some(items);
        }
        loop {
            items.push(item(self)?);
            let mark = self.peek()?;
            self.at += 1;
            match mark {
                b',' => {}
                _ if mark == end => return Some(items),
                _ => return None,
            }
        }
    }

    /// A number: its value if it is an integer of 64 bits.
    fn number(&mut self) -> Option<Option<i64>> {
        let rest = &self.text[self.at..];
        let digits = |text: &'b str| text.trim_start_matches(|c: char| c.is_ascii_digit());
        let unsigned = rest.strip_prefix('-').unwrap_or(rest);
        let mut behind = unsigned.strip_prefix('0').unwrap_or_else(|| digits(unsigned));
        let whole = &rest[..rest.len() - behind.len()];
        if behind.len() == unsigned.len() {
            return None;
        }
        if let Some(fraction) = behind.strip_prefix('.') {
            behind = Some(digits(fraction)).filter(|left| left.len() < fraction.len())?;
        }
        if let Some(power) = behind.strip_prefix(['e', 'E']) {
            let power = power.strip_prefix(['+', '-']).unwrap_or(power);
            behind = Some(digits(power)).filter(|left| left.len() < power.len())?;
        }
        self.at += rest.len() - behind.len();
        let is_whole = whole.len() + behind.len() == rest.len() && whole != "-0";
        Some(whole.parse().ok().filter(|_| is_whole))
    }

    fn string(&mut self) -> Option<Cow<'b, str>> {
        self.eat(b'"')?;
        let mut text = String::new();
        loop {
            let rest = &self.text[self.at..];
            let plain = &rest[..find_either(rest.as_bytes(), b'"', b'\\')?];
            if plain.bytes().fold(false, |has_control, byte| has_control | (byte < 0x20)) {
                return None;
            }
            self.at += plain.len() + 1;
            if rest.as_bytes()[plain.len()] == b'"' {
                if text.is_empty() {
                    return Some(Cow::Borrowed(plain));
                }
                text.push_str(plain);
                return Some(Cow::Owned(text));
            }
            text.push_str(plain);
            text.push(self.escaped()?);
        }
    }

    /// The character that is written behind a backslash.
    fn escaped(&mut self) -> Option<char> {
        let byte = *self.text.as_bytes().get(self.at)?;
        self.at += 1;
        Some(match byte {
            b'n' => '\n',
            b'r' => '\r',
            b't' => '\t',
            b'b' => '\x08',
            b'f' => '\x0C',
            b'"' | b'\\' | b'/' => char::from(byte),
            b'u' => self.unicode()?,
            _ => return None,
        })
    }

    fn unicode(&mut self) -> Option<char> {
        let high = self.unit()?;
        if !(0xD800..0xDC00).contains(&high) {
            return char::from_u32(high);
        }
        self.text[self.at..].starts_with("\\u").then(|| self.at += 2)?;
        let low = self.unit()?.checked_sub(0xDC00).filter(|low| *low < 0x400)?;
        char::from_u32(0x10000 + ((high - 0xD800) << 10) + low)
    }

    /// Four hexadecimal digits.
    fn unit(&mut self) -> Option<u32> {
        let digits = self.text.get(self.at..self.at + 4)?;
        self.at += 4;
        digits.bytes().try_fold(0, |unit, digit| Some(unit << 4 | char::from(digit).to_digit(16)?))
    }
}

fn put_number(out: &mut Vec<u8>, mut number: u32) {
    let mut digits = [0; 10];
    let mut at = digits.len();
    loop {
        at -= 1;
        digits[at] = b'0' + (number % 10) as u8;
        number /= 10;
        if number == 0 {
            return out.extend_from_slice(&digits[at..]);
        }
    }
}

pub fn put_text(out: &mut Vec<u8>, text: &str) {
    let mut from = 0;
    out.push(b'"');
    for (at, byte) in text.bytes().enumerate() {
        let escape = match byte {
            b'"' | b'\\' => byte,
            b'\n' => b'n',
            b'\r' => b'r',
            b'\t' => b't',
            8 => b'b',
            12 => b'f',
            0..0x20 => b'u',
            _ => continue,
        };
        out.extend_from_slice(&text.as_bytes()[from..at]);
        out.extend_from_slice(&[b'\\', escape]);
        if escape == b'u' {
            write!(out, "{byte:04x}").expect("a vector takes all");
        }
        from = at + 1;
    }
    out.extend_from_slice(&text.as_bytes()[from..]);
    out.push(b'"');
}

fn put_position(out: &mut Vec<u8>, at: Position) {
    out.extend_from_slice(b"{\"character\":");
    put_number(out, at.character);
    out.extend_from_slice(b",\"line\":");
    put_number(out, at.line);
    out.push(b'}');
}

/// Writes the range of a place.
pub fn put_range(out: &mut Vec<u8>, ruler: &mut Ruler, place: Place) {
    let start = ruler.position(place.line, place.start);
    let end = ruler.position(place.line, place.end);
    put_span(out, start, end);
}

pub fn put_span(out: &mut Vec<u8>, start: Position, end: Position) {
    out.extend_from_slice(b"{\"end\":");
    put_position(out, end);
    out.extend_from_slice(b",\"start\":");
    put_position(out, start);
    out.push(b'}');
}
