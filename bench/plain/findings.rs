//! What is wrong or doubtful in a text.

use crate::grammar::{Code, Form, Grammar};
use crate::json::{put_range, put_text};
use crate::least::settle;
use crate::text::{Place, Ruler, Text};

/// The code, the severity and the message of a finding, in which NAME stands for the name.
fn told(code: Code) -> (&'static str, u8, &'static str) {
    match code {
        Code::NoName => ("syntax", 1, "rule name expected"),
        Code::NoDefinedAs => ("syntax", 1, "\"=\" or \"=/\" expected"),
        Code::BadToken => ("syntax", 1, "bad character"),
        Code::ElementExpected => ("syntax", 1, "element expected"),
        Code::BlankExpected => ("syntax", 1, "blank expected"),
        Code::Unclosed => ("syntax", 1, "bracket not closed"),
        Code::NumberTooLarge => ("number-too-large", 1, "number too large"),
        Code::TooDeep => ("too-deep", 1, "brackets nested too deep"),
        Code::Undefined => ("undefined", 1, "undefined rule NAME"),
        Code::Duplicate => ("duplicate", 1, "rule NAME is already defined"),
        Code::NoBase => ("no-base", 2, "no earlier definition of NAME"),
        Code::EmptyRepeat => ("empty-repeat", 2, "repeat with minimum above maximum"),
        Code::EmptyRange => ("empty-range", 2, "range with low above high"),
        Code::Unproductive => ("unproductive", 2, "rule NAME generates nothing"),
    }
}

/// The findings of a text, in their order.
fn findings(text: &Text) -> Vec<(Place, Code)> {
    let mut grammar = Grammar::of(text);
    settle(&mut grammar);
    let unknown = grammar.unknown();
    for node in &grammar.nodes {
        if let Form::Root { name, .. } = node.form
            && !node.is_settled()
            && !unknown[name as usize]
        {
            grammar.findings.push((grammar.names[name as usize].head, Code::Unproductive));
        }
    }
    grammar.findings.sort_by_key(|(place, code)| (place.start, *code));
    grammar.findings
}

/// Writes the findings of a text.
pub fn put_findings(out: &mut Vec<u8>, text: &Text) {
    let mut ruler = Ruler::new(text);
    out.push(b'[');
    for (at, (place, code)) in findings(text).into_iter().enumerate() {
        let (name, severity, message) = told(code);
        let message = message.replace("NAME", text.slice(place.start, place.end));
        out.extend_from_slice(if at > 0 { b",{\"code\":" } else { b"{\"code\":" });
        put_text(out, name);
        out.extend_from_slice(b",\"message\":");
        put_text(out, &message);
        out.extend_from_slice(b",\"range\":");
        put_range(out, &mut ruler, place);
        out.extend_from_slice(b",\"severity\":");
        out.push(b'0' + severity);
        out.extend_from_slice(b",\"source\":\"abnf\"}");
    }
    out.push(b']');
}
