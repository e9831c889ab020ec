//! Least lengths and shortest texts, by Knuth's generalisation of Dijkstra's algorithm (1977).

use crate::grammar::{Form, Grammar, NONE, Node, series};
use std::cmp::Reverse;
use std::collections::{BinaryHeap, HashMap};
use std::fmt::Write;

/// Choices that may be settled next, the one with the least length and height first.
type Heap = BinaryHeap<Reverse<(u64, u32, u32)>>;

impl Node {
    pub fn is_settled(&self) -> bool {
        self.height != NONE
    }
}

/// Settles each node that generates anything. Choices are settled in the order of their lengths and heights; all else follows at once.
pub fn settle(grammar: &mut Grammar) {
    let mut heap = Heap::new();
    for at in 0..grammar.nodes.len() as u32 {
        if let Some((length, height)) = known(grammar, at) {
            tell(grammar, &mut heap, at, length, height);
        }
    }
    while let Some(Reverse((length, height, at))) = heap.pop() {
        if grammar.nodes[at as usize].is_settled() {
            continue;
        }
        tell(grammar, &mut heap, at, length, height);
        if let Form::Root { name, .. } = grammar.nodes[at as usize].form {
            let mut user = grammar.names[name as usize].first_use;
            while let Some(Node { form: Form::Use { next_use, .. }, .. }) = grammar.nodes.get(user as usize) {
                let next = *next_use;
                tell(grammar, &mut heap, user, length, height + 1);
                user = next;
            }
        }
    }
}

/// The length and the height of a node that needs no other.
fn known(grammar: &Grammar, at: u32) -> Option<(u64, u32)> {
    match grammar.nodes[at as usize].form {
        Form::Quoted(start, end) => Some((quoted(grammar, start, end).len() as u64, 0)),
        Form::Series(start, end) => {
            let points = grammar.text.slice(start, end).bytes().filter(|byte| *byte == b'.');
            Some((points.count() as u64 + 1, 0))
        }
        Form::Span(low, high) => (low <= high).then_some((1, 0)),
        Form::Repeat { least: 0, .. } => Some((0, 0)),
        Form::Use { name, .. } => {
            let core = grammar.names[name as usize].core?;
            Some((core.example.len() as u64, core.height + 1))
        }
        _ => None,
    }
}

/// What stands between the quotes.
fn quoted<'t>(grammar: &Grammar<'t>, start: u32, end: u32) -> &'t str {
    let token = grammar.text.slice(start, end);
    token.split_once('"').map_or("", |(_, rest)| &rest[..rest.len() - 1])
}

/// Settles a node, and the nodes above it that follow from it. A choice waits in the heap.
fn tell(grammar: &mut Grammar, heap: &mut Heap, mut at: u32, mut length: u64, mut height: u32) {
    loop {
        let node = &mut grammar.nodes[at as usize];
        (node.length, node.height) = (length, height);
        at = node.parent;
        let Some(above) = grammar.nodes.get_mut(at as usize) else {
            return;
        };
        match &mut above.form {
            Form::Row { first, waits } => {
                *waits -= 1;
                if *waits > 0 {
                    return;
                }
                let first = *first;
                (length, height) = sum(grammar, first);
            }
            Form::Repeat { least: least @ 1.., .. } => length = length.saturating_mul(u64::from(*least)),
            Form::Choice { .. } | Form::Root { .. } if above.height == NONE => {
                heap.push(Reverse((length, height, at)));
                return;
            }
            _ => return,
        }
    }
}

/// The length of a row and the greatest height in it.
fn sum(grammar: &Grammar, first: u32) -> (u64, u32) {
    let parts = grammar.linked(first).map(|at| &grammar.nodes[at as usize]);
    parts.fold((0, 0), |(length, height), part| (part.length.saturating_add(length), part.height.max(height)))
}

/// What is still to be done in writing a text.
enum Task {
    Write(u32),
    /// A rule has been written whole, from this character on.
    Note(u32, usize),
}

/// The shortest text of a rule, which is settled: of a choice the first part with the choice's own length and height.
fn shortest(grammar: &Grammar, root: u32) -> Vec<u32> {
    let mut text: Vec<u32> = Vec::new();
    let mut written = HashMap::new();
    let mut tasks = vec![Task::Write(root)];
    while let Some(task) = tasks.pop() {
        let at = match task {
            Task::Write(at) => at,
            Task::Note(root, start) => {
                written.insert(root, start..text.len());
                continue;
            }
        };
        let node = &grammar.nodes[at as usize];
        if node.length == 0 {
            continue;
        }
        match node.form {
            Form::Quoted(start, end) => text.extend(quoted(grammar, start, end).bytes().map(u32::from)),
            Form::Series(start, end) => text.extend(series(grammar.text.slice(start, end))),
            Form::Span(low, _) => text.push(low),
            Form::Row { first, .. } => {
                let from = tasks.len();
                tasks.extend(grammar.linked(first).map(Task::Write));
                tasks[from..].reverse();
            }
            Form::Choice { first } | Form::Root { first, .. } => tasks.extend(chosen(grammar, node, first).map(Task::Write)),
            Form::Repeat { least, body } => tasks.extend((0..least).map(|_| Task::Write(body))),
            Form::Use { name, .. } => match &grammar.names[name as usize] {
                name if name.root == NONE => text.extend(name.core.map_or("", |core| core.example).bytes().map(u32::from)),
                name => match written.get(&name.root).cloned() {
                    Some(before) => text.extend_from_within(before),
                    None => tasks.extend([Task::Note(name.root, text.len()), Task::Write(name.root)]),
                },
            },
            Form::EmptyRepeat | Form::Opaque => {}
        }
    }
    text
}

/// The first part of a choice with the choice's own length and height.
fn chosen(grammar: &Grammar, choice: &Node, first: u32) -> Option<u32> {
    grammar.linked(first).find(|at| {
        let part = &grammar.nodes[*at as usize];
        (part.length, part.height) == (choice.length, choice.height)
    })
}

/// A text as it is shown.
fn rendered(characters: impl Iterator<Item = u32>) -> String {
    let mut text = String::new();
    for character in characters {
        match character {
            0x5C => text.push_str("\\\\"),
            0x20..=0x7E => text.push(char::from(character as u8)),
            _ => write!(text, "\\x{{{character:X}}}").expect("a string takes all"),
        }
    }
    text
}

/// What is shown of a name.
pub fn hover_text(grammar: &mut Grammar, name: &str) -> String {
    let defined = |number: &u32| grammar.names[*number as usize].root != NONE;
    let Some(number) = grammar.find(name).filter(defined) else {
        return core_text(name);
    };
    let root = grammar.names[number as usize].root;
    if grammar.unknown()[number as usize] {
        return "not known".to_owned();
    }
    settle(grammar);
    let node = &grammar.nodes[root as usize];
    match node.length {
        _ if !node.is_settled() => "generates nothing".to_owned(),
        u64::MAX => format!("shortest length {} or more", u64::MAX),
        length @ 4097.. => format!("shortest length {length}\nexample not shown"),
        length => {
            let example = rendered(shortest(grammar, root).into_iter());
            format!("shortest length {length}\nexample {example}")
        }
    }
}

/// What is shown of a name that the text doesn't define.
fn core_text(name: &str) -> String {
    match crate::grammar::core_rule(name) {
        Some(core) => {
            let example = rendered(core.example.bytes().map(u32::from));
            format!("shortest length {}\nexample {example}", core.example.len())
        }
        None => "undefined".to_owned(),
    }
}
