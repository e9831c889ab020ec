#!/usr/bin/env python3
"""Tries what looks for comments (tools/comments.py), on a made-up crate and on changes of it that must be refused.

    tools/comments_rows.py

The gate runs them before any proof. The last line is 'N passed, M failed'.
"""
import os
import sys
import tempfile

import comments
import rows
from edits.functions import Source
from workspace import write

ROOT = """//! What the crate is for.

mod inner;

pub use inner::{Fault, Pair, made, law, pairs};

/// How many there are.
pub const MOST: usize = 3;
"""
INNER = """/// Two numbers.
pub struct Pair {
    /// The left one.
    pub left: u8,
}

/// Why it fails.
pub enum Fault {
    Memory,
}

struct Hidden;

impl Pair {
    /// A pair of its own.
    ///
    /// # Errors
    /// `Memory`, where an allocation is refused.
    pub fn copy(&self, alloc: Global) -> Result<Pair, Fault>
        ensures { OnOk result (Same self.now) }
    {
        made(alloc)
    }

    fn hidden(&self) -> bool {
        self.left == 0
    }
}

/// So many pairs.
pub fn pairs(count: usize) -> Vec<Pair> {
    Vec::new()
}

impl From<AllocError> for Fault {
    fn from(fault: AllocError) -> Fault {
        Fault::Memory
    }
}

/// A pair. It is refused memory alone.
pub fn made(alloc: Global) -> Result<Pair, AllocError> {
    Ok(Pair { left: 1 })
}

/// Each pair has a sum.
pub fn law()
    ensures { (p : Pair) → Sum p ≡ Sum p }
{}

pub fn not_handed_on() -> u8 {
    1
}
"""
SUMS = """-- the sum of a pair
abbrev pub Sum : Pair → ℕ
Sum p = p.left

abbrev half : ℕ
half = 1

abbrev mutual
  -- an even number
  pub Even : ℕ → Type 0
  Even zero = Unit {0}

  -- an odd number
  pub Odd : ℕ → Type 0
  Odd zero = ⊥

-- where n is added to m
module _ (n : ℕ) where
  abbrev pub plus : ℕ → ℕ
  plus m = n + m
"""
FILES = {"src/lib.rt": ROOT, "src/inner.rt": INNER, "specs/Lib.antt": "pub mod Sums\n", "specs/Sums.antt": SUMS}
# Of each kind how many are looked at there.
LOOKED = {"Types": 3, "Functions": 3, "Laws": 1, "Definitions": 3, "Errors": 2, "Numbers": 1}
# A change of a file, and what is then found to lack something, by its kind.
CHANGES = (
    ("src/lib.rt", "/// How many there are.\n", "", ("Types", "crates/made/src/lib.rt: MOST")),
    ("src/inner.rt", "/// Two numbers.\n", "", ("Types", "crates/made/src/inner.rt: Pair")),
    ("src/inner.rt", "/// Two numbers.\n", "///\n", ("Types", "crates/made/src/inner.rt: Pair")),
    ("src/inner.rt", "/// Two numbers.\n", "// Two numbers.\n", ("Types", "crates/made/src/inner.rt: Pair")),
    ("src/inner.rt", "    fn hidden", "    pub fn hidden", ("Functions", "crates/made/src/inner.rt: inner::Pair::hidden")),
    ("src/inner.rt", "/// Each pair has a sum.\n", "", ("Laws", "crates/made/src/inner.rt: inner::law")),
    ("src/inner.rt", "    /// # Errors\n", "", ("Errors", "crates/made/src/inner.rt: inner::Pair::copy")),
    ("src/inner.rt", "    /// # Errors\n", "    /// Errors\n", ("Errors", "crates/made/src/inner.rt: inner::Pair::copy")),
    ("src/inner.rt", " It is refused memory alone.", "", ("Errors", "crates/made/src/inner.rt: inner::made")),
    ("src/inner.rt", "    fn hidden(&self) -> bool {", "    /// Whether it is.\n    pub fn hidden(&self) -> std::Result<bool, Fault> {", ("Errors", "crates/made/src/inner.rt: inner::Pair::hidden")),
    ("src/inner.rt", "/// So many pairs.\n", "/// Some pairs.\n", ("Numbers", "crates/made/src/inner.rt: inner::pairs")),
    ("src/inner.rt", "made(alloc: Global)", "made(alloc: Global, left: u8)", ("Numbers", "crates/made/src/inner.rt: inner::made")),
    ("src/inner.rt", "copy(&self, alloc: Global)", "copy(&self, alloc: Global, left: u8)", ("Numbers", "crates/made/src/inner.rt: inner::Pair::copy")),
    ("specs/Sums.antt", "-- the sum of a pair\n", "", ("Definitions", "crates/made/specs/Sums.antt: Sum")),
    ("specs/Sums.antt", "-- the sum of a pair\n", "-- the sum of a pair\n\n", ("Definitions", "crates/made/specs/Sums.antt: Sum")),
    ("specs/Sums.antt", "abbrev half", "abbrev pub half", ("Definitions", "crates/made/specs/Sums.antt: half")),
    ("specs/Sums.antt", "  -- an odd number\n", "", ("Definitions", "crates/made/specs/Sums.antt: Even, Odd")),
    ("specs/Sums.antt", "-- where n is added to m\n", "", ("Definitions", "crates/made/specs/Sums.antt: plus")),
    ("specs/Sums.antt", "  plus m = n + m\n", "  plus m = n + m\n\n  abbrev pub twice : ℕ\n  twice = n + n\n", ("Definitions", "crates/made/specs/Sums.antt: twice")),
)
# Changes by which nothing comes to lack anything.
HARMLESS = (
    ("src/inner.rt", "made(alloc: Global)", "made(alloc: Global, left: &[u8])"),
    ("specs/Sums.antt", "abbrev mutual\n", "-- even and odd numbers\nabbrev mutual\n"),
    ("src/inner.rt", "-> Result<Pair, AllocError> {", "-> Pair {"),
    ("src/inner.rt", "    fn from(", "    /// Memory is refused.\n    fn from("),
    ("src/inner.rt", "/// Each pair has a sum.\n", "/// Each pair has a sum.\n#[inline]\n"),
)


def seen_with(path=None, old="", new=""):
    """What is seen of the made-up crate, with a change of one of its files."""
    with tempfile.TemporaryDirectory() as folder:
        for it, text in FILES.items():
            os.makedirs(os.path.dirname(f"{folder}/{it}"), exist_ok=True)
            if it == path and text.count(old) != 1:
                raise ValueError(f"{path} must have {old!r} once")
            write(f"{folder}/{it}", text.replace(old, new) if it == path else text)
        return comments.seen_of([Source("made", folder)])


def lacking(seen):
    return [(kind, it) for kind, some in seen.lacking.items() for it in some]


def fault_cases():
    """What lacks something is refused, and so is too little to look at."""
    yield "nothing lacks anything", [*seen_with().faults(LOOKED)], []
    few = seen_with("src/lib.rt", "/// How many there are.\n", "")
    yield "a type without a comment", [*few.faults(LOOKED)], ["crates/made/src/lib.rt: MOST: no comment"]
    unsaid = seen_with("src/inner.rt", " It is refused memory alone.", "")
    yield "a function that doesn't say when it fails", [it.rpartition(": ")[2] for it in unsaid.faults(LOOKED)], ["nothing says when it fails"]
    uncounted = seen_with("src/inner.rt", "/// So many pairs.\n", "/// Some pairs.\n")
    yield "a function whose number counts nothing", [it.rpartition(": ")[2] for it in uncounted.faults(LOOKED)], ["nothing says what its numbers count"]
    for kind, count in LOOKED.items():
        line = f"of {kind} {count} were looked at, and at least {count + 1} must be"
        yield f"too few {kind}", [*seen_with().faults({**LOOKED, kind: count + 1})], [line]
    yield "each kind has a least count", {*comments.LEAST}, {*comments.KINDS}
    yield "nothing at all", len([*comments.seen_of([]).faults(LOOKED)]), len(LOOKED)


def cases():
    whole = seen_with()
    yield "nothing is missing", lacking(whole), []
    yield "what is looked at", dict(whole.looked), LOOKED
    for path, old, new, wanted in CHANGES:
        yield f"{old.strip()!r} becomes {new.strip()!r}", lacking(seen_with(path, old, new)), [wanted]
    for path, old, new in HARMLESS:
        yield f"{old.strip()!r} becomes {new.strip()!r}", lacking(seen_with(path, old, new)), []
    yield from fault_cases()
    yield "crates that are left out", [it.name for it in comments.all_sources() if it.name in comments.SHOWN_ELSEWHERE], []


if __name__ == "__main__":
    sys.exit(rows.report(cases()))
