//! The answers to requests about a text, each made from the text alone.

use crate::grammar::Grammar;
use crate::json::{put_range, put_span, put_text};
use crate::least::hover_text;
use crate::text::{Place, Position, Ruler, Text};
use crate::tokens::{blocks, definitions, head, name_at, references};

/// A request about a text.
pub enum Ask {
    Symbols,
    Hover(Position),
    Definition(Position),
    /// With the places that define the name, or without.
    References(Position, bool),
}

pub fn put_answer(out: &mut Vec<u8>, text: &Text, uri: &str, ask: &Ask) {
    match ask {
        Ask::Symbols => put_symbols(out, text),
        Ask::Hover(at) => put_hover(out, text, *at),
        Ask::Definition(at) => match named(text, *at) {
            Some((_, name)) => put_places(out, text, uri, definitions(text, name)),
            None => out.extend_from_slice(b"[]"),
        },
        Ask::References(at, with_definitions) => match named(text, *at) {
            Some((_, name)) => put_places(out, text, uri, references(text, name, *with_definitions)),
            None => out.extend_from_slice(b"[]"),
        },
    }
}

/// The name at a position.
fn named(text: &Text, at: Position) -> Option<(Place, &str)> {
    let place = name_at(text, text.spot(at))?;
    Some((place, text.slice(place.start, place.end)))
}

fn put_symbols(out: &mut Vec<u8>, text: &Text) {
    let mut ruler = Ruler::new(text);
    let mut separator = b'[';
    for block in blocks(text) {
        let mut last = None;
        let mut items = block.items().inspect(|item| last = Some(item.place));
        let Some((name, _)) = head(&mut items) else {
            continue;
        };
        items.for_each(drop);
        let last = last.unwrap_or(name);
        let start = ruler.position(name.line, name.start);
        let name_end = ruler.position(name.line, name.end);
        let end = ruler.position(last.line, last.end);
        out.push(separator);
        separator = b',';
        out.extend_from_slice(b"{\"kind\":12,\"name\":");
        put_text(out, text.slice(name.start, name.end));
        out.extend_from_slice(b",\"range\":");
        put_span(out, start, end);
        out.extend_from_slice(b",\"selectionRange\":");
        put_span(out, start, name_end);
        out.push(b'}');
    }
    out.extend_from_slice(if separator == b'[' { b"[]" } else { b"]" });
}

fn put_places(out: &mut Vec<u8>, text: &Text, uri: &str, places: impl Iterator<Item = Place>) {
    let mut ruler = Ruler::new(text);
    out.push(b'[');
    for (at, place) in places.enumerate() {
        out.extend_from_slice(if at > 0 { b",{\"range\":" } else { b"{\"range\":" });
        put_range(out, &mut ruler, place);
        out.extend_from_slice(b",\"uri\":");
        put_text(out, uri);
        out.push(b'}');
    }
    out.push(b']');
}

fn put_hover(out: &mut Vec<u8>, text: &Text, at: Position) {
    let Some((place, name)) = named(text, at) else {
        return out.extend_from_slice(b"null");
    };
    let shown = hover_text(&mut Grammar::of(text), name);
    out.extend_from_slice(b"{\"contents\":{\"kind\":\"plaintext\",\"value\":");
    put_text(out, &shown);
    out.extend_from_slice(b"},\"range\":");
    put_range(out, &mut Ruler::new(text), place);
    out.push(b'}');
}
