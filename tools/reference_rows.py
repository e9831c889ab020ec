#!/usr/bin/env python3
"""Tries what the reference (tools/reference.py) takes of sources, on a made-up crate. The last line is 'N passed, M failed'."""
import os
import sys
import tempfile

import reference
import rows
from workspace import write

ROOT = """//! What the crate is for,
//! in two lines.
//!
//! More of it.
#![tactic(auto)]

mod inner;
pub mod outer;

pub use inner::{Pair, made};
pub use inner::law;

/// How many there are, at most.
pub const MOST: usize = 3;

/// In the root.
pub fn first() -> u8
    ensures { result ≡ 1 }
{
    1
}

fn private() -> u8 {
    2
}
"""
INNER = """/// Two numbers.
#[derive(Drop)]
pub struct Pair {
    /// The left one, in bytes.
    pub left: u8,
    /// Not seen.
    right: u8,
    pub(crate) third: u8,
}

/// Not handed on.
pub struct Hidden {
    pub a: u8,
}

impl Model for Pair {
    ghost use Rattle.std.specs.Prelude.{ℕ};

    // what the left one is
    ghost Value = { ℕ };

    ghost view = { λ p. p.left };
}

impl Pair {
    /// The sum.
    ///
    /// # Errors
    /// None.
    pub fn sum(&self) -> u8
        ensures { result ≡ Sum self.now }
    {
        self.left
    }

    fn half(&self) -> u8 {
        self.left
    }
}

impl Clone for Pair {
    fn clone(&self) -> Pair {
        Pair { left: 1, right: 2, third: 3 }
    }
}

/// A pair.
pub fn made() -> u8 {
    1
}

pub fn not_handed_on() -> u8 {
    1
}

/// Each pair has a sum.
pub fn law()
    ensures { (p : Pair) → Sum p ≡ Sum p }
{}
"""
OUTER = "/// Stands in a public module.\npub fn open() -> u8 {\n    1\n}\n"
SUMS = """use Rattle.std.specs.Prelude.{ℕ}

-- the sum
-- of a pair
abbrev pub Sum : Pair → ℕ
Sum p = p.left

-- not public
abbrev half : ℕ
half = 1

infixl 10 ◌>>◌
-- one behind another
abbrev pub ◌>>◌ : Pair → Pair → Pair
p >> q = q

mutual
  pub data Tree : Type 0 where
    fork : (trees : Trees) → Tree

  pub data Trees : Type 0 where
    none : Trees

-- where n is added
module _ (n : ℕ) where
  -- to a number
  abbrev pub plus : ℕ → ℕ
  plus m = n + m

  -- and to that once more
  abbrev pub plus_twice : ℕ → ℕ
  plus_twice m = plus (plus m)

abbrev mutual
  pub Even : ℕ → Type 0
  Even zero = Unit {0}

  pub Odd : ℕ → Type 0
  Odd zero = ⊥

-- is a sum
pub record IsSum (p : Pair) : Type 0 where
  pub sum : Sum p ≡ 3
"""
FILES = {
    "src/lib.rt": ROOT,
    "src/inner.rt": INNER,
    "src/outer.rt": OUTER,
    "specs/Lib.antt": "pub mod Sums\n",
    "specs/Sums.antt": SUMS,
    "edits/another_sum.edit": "file: specs/Sums.antt\nold: Sum p = p.left\nnew: Sum p = 0\n",
    "edits/once_is_enough.edit": "file: specs/Sums.antt\nold: plus (plus m)\nnew: plus m\n",
    "edits/one_is_two.edit": "file: src/lib.rt\nold:     1\nnew:     2\n",
}
# Of each entry its section, its name and its edits.
ENTRIES = [
    ("Types", "Pair", ()),
    ("Types", "MOST", ()),
    ("Functions", "inner::Pair::sum", ()),
    ("Functions", "inner::PairClone::clone", ()),
    ("Functions", "inner::made", ()),
    ("Functions", "first", ("one_is_two",)),
    ("Functions", "outer::open", ()),
    ("Laws", "inner::law", ()),
    ("Definitions", "Even, Odd", ()),
    ("Definitions", "IsSum", ()),
    ("Definitions", "Sum", ("another_sum",)),
    ("Definitions", "Tree, Trees", ()),
    ("Definitions", "plus", ()),
    ("Definitions", "plus_twice", ("once_is_enough",)),
    ("Definitions", "◌>>◌", ()),
]
# The comment and the text of some.
TEXTS = {
    "Pair": (
        "Two numbers.",
        "#[derive(Drop)]\npub struct Pair {\n    /// The left one, in bytes.\n    pub left: u8,\n}\n\n"
        "impl Model for Pair {\n    ghost Value = { ℕ };\n\n    ghost view = { λ p. p.left };\n}",
    ),
    "MOST": ("How many there are, at most.", "pub const MOST: usize = 3;"),
    "inner::Pair::sum": ("The sum.\n\n# Errors\nNone.", "pub fn sum(&self) -> u8\n    ensures { result ≡ Sum self.now }"),
    "inner::law": ("Each pair has a sum.", "pub fn law()\n    ensures { (p : Pair) → Sum p ≡ Sum p }"),
    "Sum": ("the sum\nof a pair", "abbrev pub Sum : Pair → ℕ\nSum p = p.left"),
    "plus": ("where n is added\nto a number", "module _ (n : ℕ) where\n  abbrev pub plus : ℕ → ℕ\n  plus m = n + m"),
    "plus_twice": ("and to that once more", "module _ (n : ℕ) where\n  abbrev pub plus_twice : ℕ → ℕ\n  plus_twice m = plus (plus m)"),
    "◌>>◌": ("one behind another", "infixl 10 ◌>>◌\nabbrev pub ◌>>◌ : Pair → Pair → Pair\np >> q = q"),
}


def cases():
    with tempfile.TemporaryDirectory() as folder:
        for path, text in FILES.items():
            os.makedirs(os.path.dirname(f"{folder}/{path}"), exist_ok=True)
            write(f"{folder}/{path}", text)
        crate = reference.crate_of("made", folder, ["low"])
    yield "what a crate is for", crate.about, "What the crate is for,\nin two lines.\n\nMore of it."
    yield "its entries", [(it.section, it.name, it.edits) for it in crate.entries], ENTRIES
    found = {it.name: (it.comment, it.text) for it in crate.entries}
    for name, wanted in TEXTS.items():
        yield f"the text of {name}", found.get(name), wanted
    low = reference.Crate("low", "", [], [reference.Entry("Definitions", "p", "specs/P.antt", "", "", ())])
    high = reference.Crate("high", "", [], [reference.Entry("Definitions", "Sum", "specs/S.antt", "", "", ())])
    links = reference.Links([low, crate, high])
    for word, wanted in (("Sum", "made.html#Sum"), ("Odd", "made.html#Even, Odd"), ("sum", "made.html#inner::Pair::sum"), ("p", "low.html#p"), ("q", None)):
        yield f"where {word} is defined", links.place(crate, word), wanted
    yield "a text with links", links.linked(crate, "Sum < amp"), '<a href="made.html#Sum">Sum</a> &lt; amp'
    yield "what isn't below is no link", links.linked(low, "Sum"), "Sum"
    index = reference.index_page([crate])
    yield "a name in the index", '<li data-name="sum"><a href="made.html#inner::Pair::sum">inner::Pair::sum</a>' in index, True
    yield "how many names are in the index", index.count("<li data-name="), len(ENTRIES)
    said = "\n".join(reference.plain(crate))
    yield "as plain text", [f"---- {name} ({section}, crates/made/" in said for section, name, _ in ENTRIES], [True] * len(ENTRIES)
    yield "edits as plain text", said.count("Edits that are refused: another_sum\n"), 1


if __name__ == "__main__":
    sys.exit(rows.report(cases()))
