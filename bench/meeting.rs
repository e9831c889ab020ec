//! Names that meet in the server's table of names, for the text by which that is seeded.
//!
//!     rustc --edition 2024 -C opt-level=3 bench/meeting.rs
//!     meeting (hash | group) COUNT < TEXT
//!
//! The lines of the text, without their ends, are fed to a SipHash with fixed keys: this gives the seed. It is fed to the hasher of the
//! table, which takes a name and then the byte FF. That hasher multiplies two words to 128 bits and joins the halves by xor. An entry
//! stands in the group that the low bits of its hash name, or in one behind it, and is found there by the highest eight of its 32 bits.
//!
//! - `hash`: names of one hash. The first 16 letters lead to a state whose eight bytes could stand in a name, and these come next. So one
//!   factor of the next product is 0, whatever the last eight letters are.
//! - `group`: names whose hashes end in 16 bits that are 0, found by trying one after the other.

use std::env;
use std::hash::{DefaultHasher, Hasher};
use std::io::{self, Read, Write};
use std::thread;

const START: u64 = 0x243f_6a88_85a3_08d3;
const MULTIPLIER: u64 = 0x9e37_79b9_7f4a_7c15;
const DIGITS: &[u8; 36] = b"abcdefghijklmnopqrstuvwxyz0123456789";
const LOW: u32 = 0xffff;

/// The halves of a product, joined.
fn folded(a: u64, b: u64) -> u64 {
    let product = u128::from(a) * u128::from(b);
    product as u64 ^ (product >> 64) as u64
}

/// The eight bytes from a place on.
fn word(bytes: &[u8], at: usize) -> u64 {
    let mut eight = [0; 8];
    eight.copy_from_slice(&bytes[at..at + 8]);
    u64::from_le_bytes(eight)
}

/// The state of the table's hasher before a name.
fn seeded(text: &[u8]) -> u64 {
    let lines: Vec<u8> = text.iter().copied().filter(|byte| !matches!(byte, b'\r' | b'\n')).collect();
    let mut hasher = DefaultHasher::new();
    hasher.write(&lines);
    folded(START ^ hasher.finish(), MULTIPLIER ^ 16)
}

/// The hash by which the table has a name of more than eight bytes.
fn table_hash(seeded: u64, name: &[u8]) -> u32 {
    let length = name.len();
    let (mut state, mut at) = (seeded.wrapping_add(length as u64), 0);
    while length - at > 16 {
        state = folded(word(name, at) ^ state, word(name, at + 8) ^ MULTIPLIER);
        at += 16;
    }
    state = folded(word(name, length.saturating_sub(16)) ^ state, word(name, length - 8) ^ MULTIPLIER);
    let hash = folded(state ^ 0xff_ffff, MULTIPLIER ^ 2);
    (hash ^ (hash >> 32)) as u32
}

/// The name of so many bytes with this number.
fn spelled<const LENGTH: usize>(number: u64) -> [u8; LENGTH] {
    let mut name = [b'a'; LENGTH];
    let (mut left, mut at) = (number, 0);
    while left > 0 {
        at += 1;
        name[at] = DIGITS[(left % 36) as usize];
        left /= 36;
    }
    name
}

/// Whether a byte may stand in a name without capitals.
fn is_in_names(byte: &u8) -> bool {
    byte.is_ascii_lowercase() || byte.is_ascii_digit() || *byte == b'-'
}

/// Names of one hash.
fn of_one_hash(seeded: u64, count: u64) -> Vec<Vec<u8>> {
    let mut number = 0;
    let (front, state) = loop {
        let front = spelled::<16>(number);
        let state = folded(word(&front, 0) ^ seeded.wrapping_add(32), word(&front, 8) ^ MULTIPLIER).to_le_bytes();
        if state.iter().all(is_in_names) {
            break (front, state);
        }
        number += 1;
    };
    let names: Vec<Vec<u8>> = (0..count).map(|number| [&front[..], &state[..], &spelled::<8>(number)[..]].concat()).collect();
    let first = table_hash(seeded, &names[0]);
    assert!(names.iter().all(|name| table_hash(seeded, name) == first));
    names
}

/// Names of one group, which each of some threads tries by turns.
fn of_one_group(seeded: u64, count: u64) -> Vec<Vec<u8>> {
    let threads = thread::available_parallelism().map_or(1, usize::from);
    let each = (count as usize).div_ceil(threads);
    let search = |first: usize| {
        let names = (first as u64..).step_by(threads).map(spelled::<12>);
        names.filter(|name| table_hash(seeded, name) & LOW == 0).take(each).map(|name| name.to_vec()).collect::<Vec<_>>()
    };
    thread::scope(|scope| {
        let searches: Vec<_> = (0..threads).map(|first| scope.spawn(move || search(first))).collect();
        let found = searches.into_iter().flat_map(|it| it.join().expect("a search ends"));
        found.take(count as usize).collect()
    })
}

fn main() -> io::Result<()> {
    let words: Vec<String> = env::args().collect();
    let count = words[2].parse().expect("how many names");
    let mut text = Vec::new();
    io::stdin().read_to_end(&mut text)?;
    let names = match words[1].as_str() {
        "hash" => of_one_hash(seeded(&text), count),
        _ => of_one_group(seeded(&text), count),
    };
    io::stdout().write_all(&names.join(&b'\n'))
}
