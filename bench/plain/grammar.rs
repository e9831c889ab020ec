//! The rules of a text: one pass reads its blocks, puts their parts into one list of nodes, and notes what is wrong on the way.

use crate::text::{Place, Text};
use crate::tokens::{Item, Kind, base_of, blocks, head};
use std::collections::HashMap;
use std::hash::{BuildHasherDefault, Hash, Hasher};

/// Stands for no node and no name.
pub const NONE: u32 = u32::MAX;

const MOST_NESTED: usize = 64;

/// What is found in a text, in the order of the table of findings.
#[derive(Clone, Copy, PartialEq, Eq, PartialOrd, Ord)]
pub enum Code {
    NoName,
    NoDefinedAs,
    BadToken,
    ElementExpected,
    BlankExpected,
    Unclosed,
    NumberTooLarge,
    TooDeep,
    Undefined,
    Duplicate,
    NoBase,
    EmptyRepeat,
    EmptyRange,
    Unproductive,
}

/// What a node is. Its parts are linked by their `next`.
#[derive(Clone, Copy)]
pub enum Form {
    /// A quoted text, a number or a series of numbers: the bytes of its token.
    Quoted(u32, u32),
    Series(u32, u32),
    Span(u32, u32),
    /// A row of parts, of which so many aren't settled yet.
    Row {
        first: u32,
        waits: u32,
    },
    Choice {
        first: u32,
    },
    /// The choice of all that a name is defined as.
    Root {
        first: u32,
        name: u32,
    },
    Repeat {
        least: u32,
        body: u32,
    },
    /// A repeat whose minimum is above its maximum.
    EmptyRepeat,
    /// A use of a name, and the use of the same name that was linked before it.
    Use {
        name: u32,
        next_use: u32,
    },
    /// Prose, or a block with a fault.
    Opaque,
}

/// A part of a rule, with the least length that it generates and the least number of nested names with that length.
pub struct Node {
    pub length: u64,
    pub height: u32,
    pub parent: u32,
    pub next: u32,
    pub form: Form,
}

/// A name that is compared and hashed without case.
struct Folded<'t>(&'t str);

impl PartialEq for Folded<'_> {
    fn eq(&self, other: &Self) -> bool {
        self.0.eq_ignore_ascii_case(other.0)
    }
}

impl Eq for Folded<'_> {}

impl Hash for Folded<'_> {
    fn hash<H: Hasher>(&self, state: &mut H) {
        // Bit 5 is the case of a letter, and is set in digits and `-`.
        let (words, rest) = self.0.as_bytes().as_chunks::<8>();
        for word in words {
            state.write_u64(u64::from_le_bytes(*word) | (u64::MAX / 255 * 0x20));
        }
        let start = self.0.len() as u64;
        state.write_u64(rest.iter().fold(start, |word, byte| word << 8 | u64::from(*byte | 0x20)));
    }
}

/// Multiplies to 128 bits and folds.
#[derive(Default)]
struct FoldHasher(u64);

impl Hasher for FoldHasher {
    fn write(&mut self, bytes: &[u8]) {
        bytes.iter().for_each(|byte| self.write_u64(u64::from(*byte)));
    }
    fn write_u64(&mut self, word: u64) {
        let wide = u128::from(self.0 ^ word ^ 0x243f_6a88_85a3_08d3) * 0x9e37_79b9_7f4a_7c15;
        self.0 = wide as u64 ^ (wide >> 64) as u64;
    }
    fn finish(&self) -> u64 {
        self.0
    }
}

/// What is known of a name: the root and the first head of its rule if the text has one, else perhaps a core rule.
pub struct Name<'t> {
    pub text: &'t str,
    pub root: u32,
    pub head: Place,
    pub core: Option<&'static Core>,
    pub first_use: u32,
    has_base: bool,
    last_part: u32,
}

/// A core rule (RFC 5234, appendix B.1): its shortest text, and how many names are nested in it.
pub struct Core {
    pub name: &'static str,
    pub example: &'static str,
    pub height: u32,
}

const fn core(name: &'static str, example: &'static str, height: u32) -> Core {
    Core { name, example, height }
}

#[rustfmt::skip]
static CORE: [Core; 16] = [
    core("ALPHA", "A", 0), core("BIT", "0", 0), core("CHAR", "\x01", 0), core("CR", "\r", 0), core("CRLF", "\r\n", 1),
    core("CTL", "\0", 0), core("DIGIT", "0", 0), core("DQUOTE", "\"", 0), core("HEXDIG", "A", 0), core("HTAB", "\t", 0),
    core("LF", "\n", 0), core("LWSP", "", 0), core("OCTET", "\0", 0), core("SP", " ", 0), core("VCHAR", "!", 0),
    core("WSP", " ", 1),
];

/// The core rule of a name.
pub fn core_rule(name: &str) -> Option<&'static Core> {
    CORE.iter().find(|core| core.name.eq_ignore_ascii_case(name))
}

/// Nodes that are linked one after the other.
#[derive(Clone, Copy, Default)]
struct Chain {
    first: u32,
    last: u32,
    count: u32,
}

/// What has been read within a bracket, or of the whole block.
struct Level {
    bracket: Item,
    choice: Chain,
    row: Chain,
    /// The minimum of a repeat whose element comes next, none where that is above the maximum.
    repeat: Option<Option<u32>>,
}

impl Level {
    fn new(bracket: Item) -> Level {
        Level { bracket, choice: Chain::default(), row: Chain::default(), repeat: None }
    }
}

pub struct Grammar<'t> {
    pub text: &'t Text,
    pub names: Vec<Name<'t>>,
    pub nodes: Vec<Node>,
    pub findings: Vec<(Place, Code)>,
    pub has_opaque: bool,
    numbers: HashMap<Folded<'t>, u32, BuildHasherDefault<FoldHasher>>,
    /// The uses of names in blocks without fault.
    uses: Vec<(u32, Place)>,
}

/// The minimum and the maximum of a repeat, as they are written.
fn bounds(repeat: &str) -> (u32, u32) {
    let number = |digits: &str, absent| if digits.is_empty() { absent } else { digits.parse().unwrap_or(absent) };
    match repeat.split_once('*') {
        Some((least, most)) => (number(least, 0), number(most, u32::MAX)),
        None => (number(repeat, 0), number(repeat, 0)),
    }
}

/// The numbers of a number or a series.
pub fn series(number: &str) -> impl Iterator<Item = u32> {
    let base = base_of(number.as_bytes()[1]);
    number[2..].split('.').map(move |digits| u32::from_str_radix(digits, base).unwrap_or(u32::MAX))
}

/// The ends of a range.
fn range(number: &str) -> Option<(u32, u32)> {
    let base = base_of(number.as_bytes()[1]);
    let (low, high) = number[2..].split_once('-')?;
    Some((u32::from_str_radix(low, base).ok()?, u32::from_str_radix(high, base).ok()?))
}

/// Whether the numbers of a token fit into 32 bits.
fn fits(kind: Kind, text: &str) -> bool {
    let (digits, base) = match kind {
        Kind::Repeat => (text, 10),
        Kind::Number => (&text[2..], base_of(text.as_bytes()[1])),
        _ => return true,
    };
    let mut parts = digits.split(['.', '-', '*']);
    parts.all(|part| part.is_empty() || u32::from_str_radix(part, base).is_ok())
}

impl<'t> Grammar<'t> {
    pub fn of(text: &'t Text) -> Grammar<'t> {
        // A guess of the room: lists that grow step by step would be copied, and leave holes behind.
        let (lines, bytes) = (text.line_count() as usize, text.as_bytes().len());
        let mut grammar = Grammar {
            text,
            names: Vec::with_capacity(lines),
            nodes: Vec::with_capacity(bytes / 8),
            findings: Vec::new(),
            has_opaque: false,
            numbers: HashMap::with_capacity_and_hasher(lines, Default::default()),
            uses: Vec::with_capacity(bytes / 16),
        };
        let mut items = Vec::new();
        for block in blocks(text) {
            items.clear();
            items.extend(block.items());
            grammar.read(&items);
        }
        grammar.link_uses();
        grammar
    }

    pub fn slice(&self, place: Place) -> &'t str {
        self.text.slice(place.start, place.end)
    }

    /// The number of a name that the text has.
    pub fn find(&self, name: &str) -> Option<u32> {
        self.numbers.get(&Folded(name)).copied()
    }

    fn number_of(&mut self, name: Place) -> u32 {
        let (text, next) = (self.slice(name), self.names.len() as u32);
        let number = *self.numbers.entry(Folded(text)).or_insert(next);
        if number == next {
            let (root, first_use, last_part) = (NONE, NONE, NONE);
            self.names.push(Name { text, root, head: name, core: None, first_use, has_base: false, last_part });
        }
        number
    }

    fn find_here(&mut self, place: Place, code: Code) {
        self.findings.push((place, code));
    }

    fn push(&mut self, form: Form) -> u32 {
        let node = Node { length: 0, height: NONE, parent: NONE, next: NONE, form };
        self.nodes.push(node);
        self.nodes.len() as u32 - 1
    }

    /// Reads a block, whose parts belong to its rule if it counts.
    fn read(&mut self, items: &[Item]) {
        let (nodes, uses, findings) = (self.nodes.len(), self.uses.len(), self.findings.len());
        let body = self.body(items);
        if let Err((place, code)) = body {
            self.nodes.truncate(nodes);
            self.uses.truncate(uses);
            self.findings.truncate(findings);
            self.find_here(place, code);
        }
        let Some((head, adds)) = head(items.iter().copied()) else {
            return;
        };
        let number = self.number_of(head) as usize;
        let counts = adds || !self.names[number].has_base;
        match (adds, self.names[number].has_base) {
            (false, true) => self.find_here(head, Code::Duplicate),
            (true, false) => self.find_here(head, Code::NoBase),
            _ => {}
        }
        self.names[number].has_base |= !adds;
        if counts {
            self.define(number, head, body.ok());
        } else {
            self.nodes.truncate(nodes);
        }
    }

    /// Adds to the rule of a name the alternatives of a block, or that not all is known of it.
    fn define(&mut self, number: usize, head: Place, body: Option<Chain>) {
        let body = body.unwrap_or_else(|| {
            self.has_opaque = true;
            let node = self.push(Form::Opaque);
            Chain { first: node, last: node, count: 1 }
        });
        if self.names[number].root == NONE {
            let root = self.push(Form::Root { first: body.first, name: number as u32 });
            (self.names[number].root, self.names[number].head) = (root, head);
        } else {
            self.nodes[self.names[number].last_part as usize].next = body.first;
        }
        self.names[number].last_part = body.last;
        self.adopt(self.names[number].root, body.first);
    }

    /// Makes a node the parent of linked nodes.
    fn adopt(&mut self, parent: u32, first: u32) {
        let mut part = first;
        while part != NONE {
            let node = &mut self.nodes[part as usize];
            (node.parent, part) = (parent, node.next);
        }
    }

    fn append(&mut self, chain: &mut Chain, node: u32) {
        if chain.count == 0 {
            chain.first = node;
        } else {
            self.nodes[chain.last as usize].next = node;
        }
        (chain.last, chain.count) = (node, chain.count + 1);
    }

    /// The node of linked nodes: the one itself, or one of this form.
    fn gather(&mut self, chain: Chain, form: Form) -> u32 {
        if chain.count == 1 {
            return chain.first;
        }
        let node = self.push(form);
        self.adopt(node, chain.first);
        node
    }

    /// Ends an alternative.
    fn end_row(&mut self, level: &mut Level) {
        let row = std::mem::take(&mut level.row);
        let node = self.gather(row, Form::Row { first: row.first, waits: row.count });
        self.append(&mut level.choice, node);
    }

    /// Adds an element, with the repeat that stands before it.
    fn put(&mut self, level: &mut Level, form: Form) {
        let node = self.push(form);
        self.put_node(level, node);
    }

    fn put_node(&mut self, level: &mut Level, mut node: u32) {
        if let Some(least) = level.repeat.take() {
            node = self.repeated(least, node);
        }
        self.append(&mut level.row, node);
    }

    fn repeated(&mut self, least: Option<u32>, body: u32) -> u32 {
        let repeat = self.push(match least {
            Some(least) => Form::Repeat { least, body },
            None => Form::EmptyRepeat,
        });
        self.adopt(repeat, body);
        repeat
    }

    /// The alternatives of a block, or its fault.
    fn body(&mut self, items: &[Item]) -> Result<Chain, (Place, Code)> {
        if items[0].kind != Kind::Name {
            return Err((items[0].place, Code::NoName));
        }
        match items.get(1) {
            Some(second) if matches!(second.kind, Kind::Defines | Kind::Adds) => {}
            Some(second) => return Err((second.place, Code::NoDefinedAs)),
            None => return Err((items[0].behind(), Code::NoDefinedAs)),
        }
        let mut outer = Vec::new();
        let mut level = Level::new(items[1]);
        for at in 2..items.len() {
            self.check(items, at, &level, outer.len())?;
            self.take(items[at], &mut level, &mut outer);
        }
        let last = &items[items.len() - 1];
        if last.kind.needs_element() {
            return Err((last.behind(), Code::ElementExpected));
        }
        if !outer.is_empty() {
            return Err((level.bracket.place, Code::Unclosed));
        }
        self.end_row(&mut level);
        Ok(level.choice)
    }

    /// The fault that an item shows, if it shows one.
    fn check(&self, items: &[Item], at: usize, level: &Level, depth: usize) -> Result<(), (Place, Code)> {
        let (item, before) = (&items[at], items[at - 1].kind);
        let begins = item.kind == Kind::Repeat || item.kind.begins_element();
        let lacks_element = match item.kind {
            Kind::Repeat => !items.get(at + 1).is_some_and(|next| next.kind.begins_element() && !next.apart),
            Kind::Defines | Kind::Adds => true,
            Kind::ParenR | Kind::BracketR => depth == 0,
            _ => false,
        };
        let code = if item.kind == Kind::Bad {
            Code::BadToken
        } else if lacks_element || !begins && before.needs_element() {
            Code::ElementExpected
        } else if begins && before.ends_element() && !item.apart {
            Code::BlankExpected
        } else if item.kind.closes() && (item.kind == Kind::ParenR) != (level.bracket.kind == Kind::ParenL) {
            return Err((level.bracket.place, Code::Unclosed));
        } else if !fits(item.kind, self.slice(item.place)) {
            Code::NumberTooLarge
        } else if item.kind.opens() && depth == MOST_NESTED {
            Code::TooDeep
        } else {
            return Ok(());
        };
        Err((item.place, code))
    }

    /// Takes an item that shows no fault.
    fn take(&mut self, item: Item, level: &mut Level, outer: &mut Vec<Level>) {
        let Place { start, end, .. } = item.place;
        match item.kind {
            Kind::Name => {
                let name = self.number_of(item.place);
                self.uses.push((name, item.place));
                self.put(level, Form::Use { name, next_use: NONE });
            }
            Kind::Quoted => self.put(level, Form::Quoted(start, end)),
            Kind::Number => {
                let form = match range(self.slice(item.place)) {
                    Some((low, high)) => Form::Span(low, high),
                    None => Form::Series(start, end),
                };
                if matches!(form, Form::Span(low, high) if high < low) {
                    self.find_here(item.place, Code::EmptyRange);
                }
                self.put(level, form);
            }
            Kind::Prose => {
                self.has_opaque = true;
                self.put(level, Form::Opaque);
            }
            Kind::ParenL | Kind::BracketL => outer.push(std::mem::replace(level, Level::new(item))),
            Kind::ParenR | Kind::BracketR => self.close(level, outer),
            Kind::Slash => self.end_row(level),
            Kind::Repeat => {
                let (least, most) = bounds(self.slice(item.place));
                if most < least {
                    self.find_here(item.place, Code::EmptyRepeat);
                }
                level.repeat = Some((least <= most).then_some(least));
            }
            Kind::Defines | Kind::Adds | Kind::Comment | Kind::Blank | Kind::Bad => {}
        }
    }

    /// Ends a bracket.
    fn close(&mut self, level: &mut Level, outer: &mut Vec<Level>) {
        let Some(before) = outer.pop() else {
            return;
        };
        self.end_row(level);
        let inner = std::mem::replace(level, before);
        let mut node = self.gather(inner.choice, Form::Choice { first: inner.choice.first });
        if inner.bracket.kind == Kind::BracketL {
            node = self.repeated(Some(0), node);
        }
        self.put_node(level, node);
    }

    /// Once all names are known: links the uses of each, and finds those that stand for nothing.
    fn link_uses(&mut self) {
        for name in self.names.iter_mut().filter(|name| name.root == NONE) {
            name.core = core_rule(name.text);
        }
        for (at, node) in self.nodes.iter_mut().enumerate() {
            if let Form::Use { name, next_use } = &mut node.form {
                *next_use = std::mem::replace(&mut self.names[*name as usize].first_use, at as u32);
            }
        }
        for (name, place) in std::mem::take(&mut self.uses) {
            let name = &self.names[name as usize];
            if name.root == NONE && name.core.is_none() {
                self.find_here(place, Code::Undefined);
            }
        }
    }

    /// This node and those that are linked behind it.
    pub fn linked(&self, first: u32) -> impl Iterator<Item = u32> {
        let next = |at: &u32| Some(self.nodes[*at as usize].next).filter(|next| *next != NONE);
        std::iter::successors(Some(first), next)
    }

    /// The uses of a name.
    pub fn uses_of(&self, name: u32) -> impl Iterator<Item = u32> {
        let first = self.names[name as usize].first_use;
        let next = |at: &u32| match self.nodes[*at as usize].form {
            Form::Use { next_use, .. } => Some(next_use).filter(|next| *next != NONE),
            _ => None,
        };
        std::iter::successors(Some(first).filter(|first| *first != NONE), next)
    }

    /// For each name whether its rule leads to prose or to a block with a fault.
    pub fn unknown(&self) -> Vec<bool> {
        let mut unknown = vec![false; self.names.len()];
        if !self.has_opaque {
            return unknown;
        }
        let is_opaque = |at: &u32| matches!(self.nodes[*at as usize].form, Form::Opaque);
        let mut found: Vec<u32> = (0..self.nodes.len() as u32).filter(is_opaque).collect();
        while let Some(mut at) = found.pop() {
            while self.nodes[at as usize].parent != NONE {
                at = self.nodes[at as usize].parent;
            }
            if let Form::Root { name, .. } = self.nodes[at as usize].form
                && !std::mem::replace(&mut unknown[name as usize], true)
            {
                found.extend(self.uses_of(name));
            }
        }
        unknown
    }
}
