//! A language server for ABNF in plain Rust, by std alone and without proofs: what the server on one thread is timed beside.
//!
//!     rustc --edition 2024 -C opt-level=3 bench/plain/main.rs
//!
//! It serves initialize, shutdown, exit, didOpen, didChange, didClose, documentSymbol, definition, references and hover, and tells the
//! findings after each open and change, all with the same bytes as the crate served_plainly (same_bytes.py compares them); initialize
//! names what that one serves besides, which is refused here as unknown. Each answer is made from the text of its version alone; nothing
//! is kept but the texts. It has neither versions that are shared, nor a journal, nor checked answers, and memory that is refused ends it.

mod answers;
mod findings;
mod grammar;
mod json;
mod least;
mod session;
mod text;
mod tokens;

use session::Session;
use std::fs::File;
use std::io::{self, BufRead, BufReader, Error, Read, Write};
use std::os::fd::AsFd;
use std::process::ExitCode;

const MOST_HEADER: u64 = 4096;
const MOST_CONTENT: usize = 16 << 20;

/// The content of the next frame; none at the end of the input.
fn next_body(input: &mut impl BufRead) -> io::Result<Option<Vec<u8>>> {
    let mut header = input.by_ref().take(MOST_HEADER);
    let (mut line, mut length) = (String::new(), None);
    while header.read_line(&mut line)? > 0 {
        if line == "\r\n" {
            let length = length.filter(|length| *length <= MOST_CONTENT).ok_or(Error::other("bad length"))?;
            let mut body = Vec::with_capacity(length);
            input.by_ref().take(length as u64).read_to_end(&mut body)?;
            return if body.len() == length { Ok(Some(body)) } else { Err(Error::other("truncated")) };
        }
        let (name, value) = line.split_once(':').ok_or(Error::other("bad header"))?;
        if name.eq_ignore_ascii_case("content-length") {
            length = value.trim().parse().ok();
        }
        line.clear();
    }
    if header.limit() == MOST_HEADER { Ok(None) } else { Err(Error::other("truncated")) }
}

/// Serves one client until it exits or its input ends, and tells whether it was shut down before.
fn serve() -> io::Result<bool> {
    let mut input = BufReader::with_capacity(1 << 16, File::from(io::stdin().as_fd().try_clone_to_owned()?));
    let mut output = File::from(io::stdout().as_fd().try_clone_to_owned()?);
    let mut session = Session::new();
    while let Some(body) = next_body(&mut input)? {
        let mut said = Vec::new();
        if let Some(was_shut_down) = session.hear(body, &mut said) {
            return Ok(was_shut_down);
        }
        if !said.is_empty() {
            let header = format!("Content-Length: {}\r\n\r\n", said.len());
            said.splice(..0, header.into_bytes());
            output.write_all(&said)?;
        }
    }
    Ok(false)
}

fn main() -> ExitCode {
    match serve() {
        Ok(was_shut_down) => ExitCode::from(u8::from(!was_shut_down)),
        Err(error) => {
            eprintln!("{error}");
            ExitCode::from(2)
        }
    }
}
