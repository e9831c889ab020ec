//! The text of a document, its lines and its positions.

use std::ops::Range;

/// The most bytes that a document may have.
const MOST_BYTES: usize = 4 << 20;

/// What positions count within their line.
#[derive(Clone, Copy, PartialEq)]
pub enum Encoding {
    Utf8,
    Utf16,
    Utf32,
}

impl Encoding {
    const ALL: [Encoding; 3] = [Encoding::Utf8, Encoding::Utf16, Encoding::Utf32];

    pub fn name(self) -> &'static str {
        match self {
            Encoding::Utf8 => "utf-8",
            Encoding::Utf16 => "utf-16",
            Encoding::Utf32 => "utf-32",
        }
    }

    pub fn named(name: &str) -> Option<Encoding> {
        Encoding::ALL.into_iter().find(|encoding| encoding.name() == name)
    }

    /// The units of a text. In UTF-8 and in ASCII they are its bytes.
    fn units(self, text: &str) -> usize {
        match self {
            Encoding::Utf16 if !text.is_ascii() => text.encode_utf16().count(),
            Encoding::Utf32 if !text.is_ascii() => text.chars().count(),
            _ => text.len(),
        }
    }

    /// How many bytes of a line stand before so many units, by characters that are whole in them.
    fn bytes_before(self, line: &str, units: usize) -> usize {
        match self {
            Encoding::Utf8 => line.floor_char_boundary(units),
            Encoding::Utf16 => {
                let mut left = units;
                for (at, character) in line.char_indices() {
                    match left.checked_sub(character.len_utf16()) {
                        Some(less) => left = less,
                        None => return at,
                    }
                }
                line.len()
            }
            Encoding::Utf32 => line.char_indices().nth(units).map_or(line.len(), |(at, _)| at),
        }
    }
}

/// A position as a client gives it: units within a line.
#[derive(Clone, Copy)]
pub struct Position {
    pub line: u32,
    pub character: u32,
}

/// Bytes of a text, and the line in which they stand.
#[derive(Clone, Copy)]
pub struct Place {
    pub line: u32,
    pub start: u32,
    pub end: u32,
}

/// A text, the byte at which each of its lines starts, and what its client's positions count.
pub struct Text {
    text: String,
    starts: Vec<u32>,
    encoding: Encoding,
}

/// Where the first byte stands that is one of two, found eight bytes at a time.
pub fn find_either(bytes: &[u8], one: u8, other: u8) -> Option<usize> {
    const ONES: u64 = u64::MAX / 255;
    let zeros = |word: u64| word.wrapping_sub(ONES) & !word & (ONES << 7);
    let (words, rest) = bytes.as_chunks::<8>();
    for (at, word) in words.iter().enumerate() {
        let word = u64::from_le_bytes(*word);
        let hits = zeros(word ^ (ONES * u64::from(one))) | zeros(word ^ (ONES * u64::from(other)));
        if hits != 0 {
            return Some(8 * at + hits.trailing_zeros() as usize / 8);
        }
    }
    let at = rest.iter().position(|byte| *byte == one || *byte == other)?;
    Some(bytes.len() - rest.len() + at)
}

/// Adds the starts of the lines that follow a line end among these bytes of a text.
fn push_starts(text: &str, within: Range<usize>, starts: &mut Vec<u32>) {
    let bytes = &text.as_bytes()[..within.end];
    let mut at = within.start;
    while let Some(found) = find_either(&bytes[at..], b'\n', b'\r') {
        at += found + 1;
        if bytes[at - 1] == b'\r' && bytes.get(at) == Some(&b'\n') {
            at += 1;
        }
        starts.push(at as u32);
    }
}

impl Text {
    /// None if it is too large.
    pub fn new(text: String, encoding: Encoding) -> Option<Text> {
        let mut starts = vec![0];
        if text.len() > MOST_BYTES {
            return None;
        }
        push_starts(&text, 0..text.len(), &mut starts);
        Some(Text { text, starts, encoding })
    }

    pub fn encoding(&self) -> Encoding {
        self.encoding
    }

    pub fn as_bytes(&self) -> &[u8] {
        self.text.as_bytes()
    }

    pub fn slice(&self, start: u32, end: u32) -> &str {
        &self.text[start as usize..end as usize]
    }

    pub fn line_count(&self) -> u32 {
        self.starts.len() as u32
    }

    /// Where a line starts, or the text ends.
    pub fn start_of(&self, line: u32) -> usize {
        self.starts.get(line as usize).map_or(self.text.len(), |start| *start as usize)
    }

    /// The bytes of a line without its line end.
    pub fn line(&self, line: u32) -> Range<usize> {
        let (start, end) = (self.start_of(line), self.start_of(line + 1));
        let text = &self.text[start..end];
        let text = text.strip_suffix('\n').unwrap_or(text);
        start..start + text.strip_suffix('\r').unwrap_or(text).len()
    }

    /// The line of a position, and its byte in the text. What is past the end of a line or of the text stands at that end.
    pub fn spot(&self, at: Position) -> (u32, usize) {
        if at.line >= self.line_count() {
            return (self.line_count() - 1, self.text.len());
        }
        let line = self.line(at.line);
        (at.line, line.start + self.encoding.bytes_before(&self.text[line], at.character as usize))
    }

    /// Replaces what stands between two positions. None if the text grows too large.
    pub fn edit(&mut self, start: Position, end: Position, new: &str) -> Option<()> {
        let (start, end) = (self.spot(start), self.spot(end));
        let (from, to) = (start.min(end), start.max(end));
        // A line end may meet the one before it, so the line before is cut anew too.
        let first = from.0.saturating_sub(1);
        let behind = self.start_of(to.0 + 1);
        self.text.replace_range(from.1..to.1, new);
        let moved = |at: usize| at + new.len() - (to.1 - from.1);
        let mut cut = Vec::new();
        push_starts(&self.text, self.start_of(first)..moved(behind), &mut cut);
        let last = self.starts.len().min(to.0 as usize + 2);
        for start in &mut self.starts[last..] {
            *start = moved(*start as usize) as u32;
        }
        self.starts.splice(first as usize + 1..last, cut);
        (self.text.len() <= MOST_BYTES).then_some(())
    }
}

/// Tells positions. Those that come in the order of the text cost one pass over their lines, and none where bytes are units.
pub struct Ruler<'t> {
    text: &'t Text,
    line: u32,
    byte: usize,
    units: usize,
}

impl<'t> Ruler<'t> {
    pub fn new(text: &'t Text) -> Ruler<'t> {
        Ruler { text, line: 0, byte: 0, units: 0 }
    }

    pub fn position(&mut self, line: u32, byte: u32) -> Position {
        let byte = byte as usize;
        if self.text.encoding == Encoding::Utf8 {
            return Position { line, character: (byte - self.text.start_of(line)) as u32 };
        }
        if line != self.line || byte < self.byte {
            (self.line, self.byte, self.units) = (line, self.text.start_of(line), 0);
        }
        self.units += self.text.encoding.units(&self.text.text[self.byte..byte]);
        self.byte = byte;
        Position { line, character: self.units as u32 }
    }
}
