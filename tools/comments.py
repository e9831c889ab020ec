#!/usr/bin/env python3
"""Looks whether all that a crate shows to others has a comment, and whether functions say when they fail and what their numbers count.

    tools/comments.py

The entries are those of the reference (tools/reference.py). A public type, function, law or definition must have a comment above it; of
definitions that name each other one comment above all of them is enough, or one above each. A public function that gives a Result must
have a section `# Errors`, or say that it is refused memory alone. One that takes or gives a number must have a word for what that counts, as
bytes, lines or versions (COUNTED). Methods by which a type has a trait need none, as the trait has it.

Each thing that lacks its comment is printed. A check that finds nothing to look at would pass, so each has a least count of what it must
have looked at (LEAST). The crates of SHOWN_ELSEWHERE are left out: what they have only hands on.

It takes seconds and proves nothing.
"""
import collections
import re
import sys

import reference
from edits.functions import Source
from reference import DEFINITIONS, FUNCTIONS
from rows import report_faults
from workspace import TOP, crates

ERRORS, NUMBERS = "Errors", "Numbers"
KINDS = (*reference.SECTIONS, ERRORS, NUMBERS)
# What is said of an entry that lacks something; of all other kinds it is the comment itself.
LACKS = {ERRORS: "nothing says when it fails", NUMBERS: "nothing says what its numbers count"}
# Of how many there must be a look at least.
LEAST = {"Types": 140, "Functions": 340, "Laws": 100, "Definitions": 1800, "Errors": 130, "Numbers": 105}
# `surface` compiles each public name once more, by functions that nobody calls.
SHOWN_ELSEWHERE = ("surface",)
CONTRACT = re.compile(r"\n\s*(?:requires|ensures|promise|ghost|where)\b")
GIVES_RESULT = re.compile(r"\s*(?:\w+::)*Result\b")
BYTES = re.compile(r"\[u8\]|\b(?:Vec|List|Option|Iterator)<u8>")
NUMBER = re.compile(r"(?<![\w:])(?:[iu](?:8|16|32|64)|usize)\b")
COUNTED = re.compile(
    r"(?i)\b(?:bytes?|characters?|utf-16|lines?|blocks?|rules|nodes|names|items|entries|tokens|parts|marks?|places?|edits|documents|messages"
    r"|events|jobs|tickets?|workers?|versions?|labels?|codes?|errors?|status|seed|share|limits?|length|numbers?|count(?:s|ed)?|how (?:many|often)"
    r"|so many|from 0)\b"
)
SAYS_WHEN = re.compile(r"(?m)^# Errors$|\b[Mm]emory`? alone\b")
# A definition among those that name each other, with a comment above it.
IN_A_CYCLE_WITH_COMMENT = re.compile(r"(?m)^  --.*\n(?:  .*\n)*?  (?:\w+ )*pub (?:(?:record|data) )?(\S+)")


def is_open(entry):
    """Whether it says `pub` for itself: a method by which a type has a trait doesn't."""
    return entry.section != FUNCTIONS or bool(re.search(r"(?m)^pub\b", entry.text))


def can_fail(entry):
    """Whether it is a function that gives a Result."""
    head = CONTRACT.split(entry.text)[0]
    return entry.section == FUNCTIONS and "->" in head and bool(GIVES_RESULT.match(head.rpartition("->")[2]))


def has_number(entry):
    """Whether it is a function that takes or gives a number."""
    _, opens, types = CONTRACT.split(entry.text)[0].partition("(")
    return entry.section == FUNCTIONS and bool(NUMBER.search(BYTES.sub("", opens + types)))


def has_comment(entry):
    each = set(IN_A_CYCLE_WITH_COMMENT.findall(entry.text)) if entry.section == DEFINITIONS else set()
    return bool(entry.comment.strip()) or {*entry.name.split(", ")} <= each


def looked_at(entries):
    """What is asked of each entry: the kind of the question, the entry, and whether it is as it must be."""
    for it in filter(is_open, entries):
        yield it.section, it, has_comment(it)
        if can_fail(it):
            yield ERRORS, it, bool(SAYS_WHEN.search(it.comment))
        if has_number(it):
            yield NUMBERS, it, bool(COUNTED.search(it.comment.partition("# Errors")[0]))


class Seen:
    """How many entries of each kind there were, and which of them lack something."""

    def __init__(self):
        self.looked, self.lacking = collections.Counter(), {it: [] for it in KINDS}

    def add(self, crate, entries):
        for kind, entry, is_there in looked_at(entries):
            self.looked[kind] += 1
            if not is_there:
                self.lacking[kind].append(f"crates/{crate}/{entry.path}: {entry.name}")

    def faults(self, least):
        """What lacks something, and where too little was looked at."""
        for kind in KINDS:
            yield from (f"{it}: {LACKS.get(kind, 'no comment')}" for it in self.lacking[kind])
            if self.looked[kind] < least[kind]:
                yield f"of {kind} {self.looked[kind]} were looked at, and at least {least[kind]} must be"


def seen_of(sources):
    seen = Seen()
    for it in sources:
        seen.add(it.name, reference.entries_of(it, {}))
    return seen


def all_sources():
    return [Source(it, f"{TOP}/crates/{it}") for it in crates() if it not in SHOWN_ELSEWHERE]


def main():
    return report_faults("comments", seen_of(all_sources()).faults(LEAST), "all that must be there")


if __name__ == "__main__":
    sys.exit(main())
