//! The tokens of lines, the items of blocks, and where names stand.

use crate::text::{Place, Text};

#[derive(Clone, Copy, PartialEq, Eq)]
pub enum Kind {
    Name,
    Defines,
    Adds,
    Slash,
    Repeat,
    ParenL,
    ParenR,
    BracketL,
    BracketR,
    Quoted,
    Number,
    Prose,
    Comment,
    Blank,
    Bad,
}

use Kind::*;

impl Kind {
    pub fn opens(self) -> bool {
        matches!(self, ParenL | BracketL)
    }
    pub fn closes(self) -> bool {
        matches!(self, ParenR | BracketR)
    }
    pub fn begins_element(self) -> bool {
        self.opens() || matches!(self, Name | Quoted | Number | Prose)
    }
    pub fn ends_element(self) -> bool {
        self.closes() || matches!(self, Name | Quoted | Number | Prose)
    }
    pub fn needs_element(self) -> bool {
        self.opens() || matches!(self, Defines | Adds | Slash)
    }
}

/// A token that is no blank and no comment; `apart` says whether something stands between it and the one before.
#[derive(Clone, Copy)]
pub struct Item {
    pub kind: Kind,
    pub apart: bool,
    pub place: Place,
}

impl Item {
    /// The empty place behind it.
    pub fn behind(&self) -> Place {
        Place { start: self.place.end, ..self.place }
    }
    /// Whether it is a name that doesn't follow a bad token or a number at once.
    fn is_place(&self, before: Option<Kind>) -> bool {
        self.kind == Name && (self.apart || !matches!(before, Some(Bad | Number)))
    }
}

/// The base that a letter of a number stands for, or 0.
pub fn base_of(letter: u8) -> u32 {
    match letter | 32 {
        b'b' => 2,
        b'd' => 10,
        b'x' => 16,
        _ => 0,
    }
}

/// The end of the bytes from a place on that have a form.
fn run(bytes: &[u8], from: usize, has_form: impl Fn(u8) -> bool) -> usize {
    let rest = &bytes[from..];
    from + rest.iter().position(|byte| !has_form(*byte)).unwrap_or(rest.len())
}

/// The end of a quoted text whose opening quote stands at this place.
fn quoted(bytes: &[u8], from: usize) -> Option<usize> {
    let end = run(bytes, from + 1, |byte| (b' '..=b'~').contains(&byte) && byte != b'"');
    (bytes.get(end) == Some(&b'"')).then_some(end + 1)
}

/// The end of a number whose digits start at the third byte.
fn number(bytes: &[u8], base: u32) -> Option<usize> {
    let digits = |from| run(bytes, from, |byte| char::from(byte).is_digit(base));
    // The end of what follows one of these marks, if digits do.
    let more = |at: usize, mark| (bytes.get(at) == Some(&mark)).then(|| digits(at + 1)).filter(|end| *end > at + 1);
    let mut end = Some(digits(2)).filter(|end| *end > 2)?;
    if let Some(high) = more(end, b'-') {
        return Some(high);
    }
    while let Some(next) = more(end, b'.') {
        end = next;
    }
    Some(end)
}

/// The class and the length of the first token of some bytes of a line. `may_close` says whether a `>` may follow.
fn scan(rest: &[u8], may_close: &mut bool) -> (Kind, usize) {
    let marked = |kind, end: Option<usize>| end.map(|end| (kind, end));
    let found = match rest[0] {
        b'a'..=b'z' | b'A'..=b'Z' => Some((Name, run(rest, 1, |byte| byte.is_ascii_alphanumeric() || byte == b'-'))),
        b' ' | b'\t' => Some((Blank, run(rest, 1, |byte| byte == b' ' || byte == b'\t'))),
        b'=' if rest.get(1) == Some(&b'/') => Some((Adds, 2)),
        b'=' => Some((Defines, 1)),
        b'/' => Some((Slash, 1)),
        b'(' => Some((ParenL, 1)),
        b')' => Some((ParenR, 1)),
        b'[' => Some((BracketL, 1)),
        b']' => Some((BracketR, 1)),
        b';' => Some((Comment, rest.len())),
        b'0'..=b'9' | b'*' => {
            let end = run(rest, 0, |byte| byte.is_ascii_digit());
            let is_range = rest.get(end) == Some(&b'*');
            Some((Repeat, if is_range { run(rest, end + 1, |byte| byte.is_ascii_digit()) } else { end }))
        }
        b'"' => marked(Quoted, quoted(rest, 0)),
        b'%' => match rest.get(1) {
            Some(b'i' | b'I' | b's' | b'S') if rest.get(2) == Some(&b'"') => marked(Quoted, quoted(rest, 2)),
            Some(letter) if base_of(*letter) != 0 => marked(Number, number(rest, base_of(*letter))),
            _ => None,
        },
        b'<' if *may_close => {
            let end = rest.iter().position(|byte| *byte == b'>');
            *may_close = end.is_some();
            marked(Prose, end.map(|end| end + 1))
        }
        _ => None,
    };
    found.unwrap_or((Bad, run(rest, 1, |byte| byte & 0xC0 == 0x80)))
}

/// The items of some lines.
pub struct Items<'t> {
    text: &'t Text,
    line: u32,
    end_line: u32,
    at: usize,
    end: usize,
    apart: bool,
    may_close: bool,
}

impl<'t> Items<'t> {
    fn of(text: &'t Text, line: u32, end_line: u32) -> Items<'t> {
        let bytes = text.line(line);
        Items { text, line, end_line, at: bytes.start, end: bytes.end, apart: false, may_close: true }
    }
}

impl Iterator for Items<'_> {
    type Item = Item;

    fn next(&mut self) -> Option<Item> {
        loop {
            if self.at < self.end {
                let start = self.at;
                let (kind, length) = scan(&self.text.as_bytes()[start..self.end], &mut self.may_close);
                self.at += length;
                if !matches!(kind, Blank | Comment) {
                    let place = Place { line: self.line, start: start as u32, end: self.at as u32 };
                    return Some(Item { kind, apart: std::mem::take(&mut self.apart), place });
                }
            } else if self.line + 1 < self.end_line {
                *self = Items::of(self.text, self.line + 1, self.end_line);
            } else {
                return None;
            }
            self.apart = true;
        }
    }
}

/// The lines of a block.
#[derive(Clone, Copy)]
pub struct Block<'t> {
    text: &'t Text,
    first: u32,
    end: u32,
}

impl<'t> Block<'t> {
    pub fn items(&self) -> Items<'t> {
        Items::of(self.text, self.first, self.end)
    }
}

/// The name that the items of a block define or add to, and whether they add.
pub fn head(mut items: impl Iterator<Item = Item>) -> Option<(Place, bool)> {
    let name = items.next().filter(|item| item.kind == Name)?;
    let defined = items.next().filter(|item| matches!(item.kind, Defines | Adds))?;
    Some((name.place, defined.kind == Adds))
}

/// The blocks of a text.
pub struct Blocks<'t> {
    text: &'t Text,
    line: u32,
    base: usize,
}

/// How many blanks a line begins with; none if nothing but a comment follows.
fn indent(text: &Text, line: u32) -> Option<usize> {
    let rest = &text.as_bytes()[text.start_of(line)..];
    let at = rest.iter().position(|byte| *byte != b' ' && *byte != b'\t')?;
    (!matches!(rest[at], b';' | b'\n' | b'\r')).then_some(at)
}

pub fn blocks(text: &Text) -> Blocks<'_> {
    let mut lines = (0..text.line_count()).filter_map(|line| Some((line, indent(text, line)?)));
    let (line, base) = lines.next().unwrap_or((text.line_count(), 0));
    Blocks { text, line, base }
}

impl<'t> Iterator for Blocks<'t> {
    type Item = Block<'t>;

    fn next(&mut self) -> Option<Block<'t>> {
        let (text, first, count) = (self.text, self.line, self.text.line_count());
        if first >= count {
            return None;
        }
        let begins = |line: &u32| indent(text, *line).is_some_and(|indent| indent <= self.base);
        let end = (first + 1..count).find(begins).unwrap_or(count);
        self.line = end;
        Some(Block { text, first, end })
    }
}

/// The places of names among items.
fn places(items: impl Iterator<Item = Item>) -> impl Iterator<Item = Place> {
    let mut before = None;
    items.filter(move |item| item.is_place(before.replace(item.kind))).map(|item| item.place)
}

/// The name at a byte of a line: the one that holds it, else the one that ends there.
pub fn name_at(text: &Text, (line, byte): (u32, usize)) -> Option<Place> {
    let mut ends_there = None;
    for place in places(Items::of(text, line, line + 1)) {
        if (place.start as usize..place.end as usize).contains(&byte) {
            return Some(place);
        }
        if place.end as usize == byte {
            ends_there = Some(place);
        }
    }
    ends_there
}

/// The places that define a name.
pub fn definitions<'t>(text: &'t Text, name: &'t str) -> impl Iterator<Item = Place> {
    let heads = blocks(text).filter_map(|block| head(block.items()));
    heads.map(|(place, _)| place).filter(|place| is_named(text, place, name))
}

/// The places of a name, those that define it only if they are wanted too.
pub fn references<'t>(text: &'t Text, name: &'t str, with_definitions: bool) -> impl Iterator<Item = Place> {
    blocks(text).flat_map(move |block| {
        let head = if with_definitions { None } else { head(block.items()) };
        let defines = head.map(|(place, _)| place.start);
        places(block.items()).filter(move |place| is_named(text, place, name) && Some(place.start) != defines)
    })
}

fn is_named(text: &Text, place: &Place, name: &str) -> bool {
    text.slice(place.start, place.end).eq_ignore_ascii_case(name)
}
