//! A client's session: its documents, and what is said to each message.

use crate::answers::{Ask, put_answer};
use crate::findings::put_findings;
use crate::json::{Json, put_text};
use crate::text::{Encoding, Position, Text};
use std::collections::HashMap;
use std::io::Write;

const MOST_DOCUMENTS: usize = 256;

const PARSE_ERROR: (i32, &str) = (-32700, "parse error");
const INVALID_REQUEST: (i32, &str) = (-32600, "invalid request");
const METHOD_NOT_FOUND: (i32, &str) = (-32601, "method not found");
const INVALID_PARAMS: (i32, &str) = (-32602, "invalid params");
const NOT_OPEN: (i32, &str) = (-32602, "document not open");
const NOT_INITIALIZED: (i32, &str) = (-32002, "not initialized");

/// What the server beside which it is timed can do: before the name of an encoding and behind it.
const CAPABILITIES: (&str, &str) = (
    concat!(
        r#"{"capabilities":{"codeActionProvider":true,"definitionProvider":true,"documentSymbolProvider":true,"#,
        r#""hoverProvider":true,"positionEncoding":""#
    ),
    concat!(
        r#"","referencesProvider":true,"renameProvider":true,"#,
        r#""semanticTokensProvider":{"full":true,"legend":{"tokenModifiers":["definition","defaultLibrary"],"#,
        r#""tokenTypes":["type","string","number","operator","comment","macro"]}},"#,
        r#""textDocumentSync":{"change":2,"openClose":true}},"serverInfo":{"name":"abnf_ls"}}"#
    ),
);

#[derive(Clone, Copy, PartialEq)]
enum Stage {
    BeforeInitialize,
    Running,
    ShutDown,
}

struct Document {
    version: i64,
    text: Text,
}

pub struct Session {
    stage: Stage,
    encoding: Encoding,
    documents: HashMap<String, Document>,
}

/// What is left to do once a message has been let go.
enum Left {
    Nothing,
    /// The findings of a document are to be told.
    Findings(String),
    /// The session is over, and whether it was shut down before.
    Exit(bool),
}

/// A change of a text: a range, or none for the whole.
type Edit<'b> = (Option<(Position, Position)>, &'b str);

impl Session {
    pub fn new() -> Session {
        Session { stage: Stage::BeforeInitialize, encoding: Encoding::Utf16, documents: HashMap::new() }
    }

    /// Hears a message and writes what is said to it. At the exit tells whether the session was shut down before.
    pub fn hear(&mut self, body: Vec<u8>, out: &mut Vec<u8>) -> Option<bool> {
        let left = match Json::read(&body) {
            Some(message) => self.message(message, out),
            None => {
                refuse(out, None, PARSE_ERROR);
                Left::Nothing
            }
        };
        drop(body);
        match left {
            Left::Nothing => None,
            Left::Findings(uri) => {
                self.publish(&uri, out);
                None
            }
            Left::Exit(was_shut_down) => Some(was_shut_down),
        }
    }

    fn message(&mut self, mut message: Json, out: &mut Vec<u8>) -> Left {
        let params = message.take("params").unwrap_or(Json::Null);
        let id = message.get("id");
        let named = id.filter(|id| id.text().is_some() || id.integer().is_some());
        match message.get("method") {
            Some(Json::Text(method)) => match (id, named) {
                (None, _) => return self.notice(method, params).unwrap_or(Left::Nothing),
                (_, Some(id)) => self.request(out, id, method, &params),
                _ => refuse(out, None, INVALID_REQUEST),
            },
            None if message.get("result").or(message.get("error")).is_some() => {}
            _ => refuse(out, named, INVALID_REQUEST),
        }
        Left::Nothing
    }

    fn request(&mut self, out: &mut Vec<u8>, id: &Json, method: &str, params: &Json) {
        match (self.stage, method) {
            (Stage::BeforeInitialize, "initialize") => {
                self.stage = Stage::Running;
                self.encoding = offered(params).unwrap_or(Encoding::Utf16);
                let parts = [CAPABILITIES.0, self.encoding.name(), CAPABILITIES.1];
                reply(out, id, |out| out.extend(parts.concat().as_bytes()));
            }
            (Stage::BeforeInitialize, _) => refuse(out, Some(id), NOT_INITIALIZED),
            (Stage::ShutDown, _) | (_, "initialize") => refuse(out, Some(id), INVALID_REQUEST),
            (Stage::Running, "shutdown") => {
                self.stage = Stage::ShutDown;
                reply(out, id, |out| out.extend_from_slice(b"null"));
            }
            (Stage::Running, _) => match self.asked(method, params) {
                Ok((uri, document, ask)) => reply(out, id, |out| put_answer(out, &document.text, uri, &ask)),
                Err(refusal) => refuse(out, Some(id), refusal),
            },
        }
    }

    /// What is asked of which document.
    fn asked<'p>(&self, method: &str, params: &'p Json) -> Result<(&'p str, &Document, Ask), (i32, &'static str)> {
        let position = || params.get("position").and_then(Json::position);
        let ask = match method {
            "textDocument/documentSymbol" => Some(Ask::Symbols),
            "textDocument/hover" => position().map(Ask::Hover),
            "textDocument/definition" => position().map(Ask::Definition),
            "textDocument/references" => {
                let context = params.get("context").and_then(|context| context.get("includeDeclaration"));
                let with_definitions = !matches!(context, Some(Json::Bool(false)));
                position().map(|at| Ask::References(at, with_definitions))
            }
            _ => return Err(METHOD_NOT_FOUND),
        };
        let (uri, ask) = uri(params).zip(ask).ok_or(INVALID_PARAMS)?;
        let document = self.documents.get(uri).ok_or(NOT_OPEN)?;
        Ok((uri, document, ask))
    }

    fn notice(&mut self, method: &str, mut params: Json) -> Option<Left> {
        if method == "exit" {
            return Some(Left::Exit(self.stage == Stage::ShutDown));
        }
        if self.stage != Stage::Running {
            return None;
        }
        let uri = uri(&params)?.to_owned();
        let document = params.get("textDocument")?;
        let version = document.get("version").and_then(Json::integer).unwrap_or(0);
        match method {
            "textDocument/didOpen" => {
                let Json::Text(text) = params.take("textDocument")?.take("text")? else {
                    return None;
                };
                self.open(&uri, version, text.into_owned())?;
            }
            "textDocument/didChange" => self.change(&uri, version, &params)?,
            "textDocument/didClose" => {
                self.documents.remove(&uri);
                return None;
            }
            _ => return None,
        }
        Some(Left::Findings(uri))
    }

    fn open(&mut self, uri: &str, version: i64, text: String) -> Option<()> {
        if self.documents.contains_key(uri) || self.documents.len() == MOST_DOCUMENTS {
            return None;
        }
        let text = Text::new(text, self.encoding)?;
        self.documents.insert(uri.to_owned(), Document { version, text });
        Some(())
    }

    /// Changes a document, or closes it if the change can't be read or makes it too large.
    fn change(&mut self, uri: &str, version: i64, params: &Json) -> Option<()> {
        let document = self.documents.get_mut(uri)?;
        let changed = edits(params).and_then(|edits| {
            document.version = version;
            edits.into_iter().try_for_each(|(range, new)| match range {
                Some((start, end)) => document.text.edit(start, end, new),
                None => {
                    document.text = Text::new(new.to_owned(), document.text.encoding())?;
                    Some(())
                }
            })
        });
        if changed.is_none() {
            self.documents.remove(uri);
        }
        changed
    }

    /// Tells the findings of a document.
    fn publish(&self, uri: &str, out: &mut Vec<u8>) {
        let document = &self.documents[uri];
        out.extend_from_slice(br#"{"jsonrpc":"2.0","method":"textDocument/publishDiagnostics","params":{"diagnostics":"#);
        put_findings(out, &document.text);
        out.extend_from_slice(b",\"uri\":");
        put_text(out, uri);
        write!(out, ",\"version\":{}}}}}", document.version).expect("a vector takes all");
    }
}

/// The first encoding that a client offers of those that are known.
fn offered(params: &Json) -> Option<Encoding> {
    let Json::Array(offers) = params.get("capabilities")?.get("general")?.get("positionEncodings")? else {
        return None;
    };
    offers.iter().find_map(|offer| Encoding::named(offer.text()?))
}

fn uri<'p>(params: &'p Json) -> Option<&'p str> {
    params.get("textDocument")?.get("uri")?.text()
}

/// The edits of a change, if all can be read.
fn edits<'p>(params: &'p Json) -> Option<Vec<Edit<'p>>> {
    let Json::Array(changes) = params.get("contentChanges")? else {
        return None;
    };
    let edit = |change: &'p Json| {
        let range = match change.get("range") {
            None | Some(Json::Null) => None,
            Some(range) => Some((range.get("start")?.position()?, range.get("end")?.position()?)),
        };
        Some((range, change.get("text")?.text()?))
    };
    changes.iter().map(edit).collect()
}

fn put_id(out: &mut Vec<u8>, id: Option<&Json>) {
    match id {
        Some(Json::Text(text)) => put_text(out, text),
        Some(Json::Number(Some(number))) => write!(out, "{number}").expect("a vector takes all"),
        _ => out.extend_from_slice(b"null"),
    }
}

fn reply(out: &mut Vec<u8>, id: &Json, put_result: impl FnOnce(&mut Vec<u8>)) {
    out.extend_from_slice(b"{\"id\":");
    put_id(out, Some(id));
    out.extend_from_slice(b",\"jsonrpc\":\"2.0\",\"result\":");
    put_result(out);
    out.push(b'}');
}

fn refuse(out: &mut Vec<u8>, id: Option<&Json>, (code, message): (i32, &str)) {
    write!(out, "{{\"error\":{{\"code\":{code},\"message\":\"{message}\"}},\"id\":").expect("a vector takes all");
    put_id(out, id);
    out.extend_from_slice(b",\"jsonrpc\":\"2.0\"}");
}
