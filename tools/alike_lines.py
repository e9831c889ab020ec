#!/usr/bin/env python3
"""Finds places in the crates that share six or more lines, so that what is said twice can be said once.

    tools/alike_lines.py

It prints a line for each pair of places, and how many pairs there are. tools/counts.py compares how many there are in code and in
statements and proofs, so that none comes without a word.

Lines count as alike without the blanks at their ends. Empty lines, comments, imports and lines without a letter or a digit are passed over,
since they say nothing by themselves. Lines that stand in more than eight places are no pair: they are of a form that the language asks for.
"""
import collections
import itertools
import os
import re
import sys

from workspace import TOP, crates, text_of

LINES = 6
MOST_PLACES = 8
# Lines that say nothing by themselves
SILENT = re.compile(r"\s*(//.*|--.*|(?:pub )?(?:ghost )?use .*|[^\w]*)$")
KINDS = {"code": (".rt",), "statements": (".antt",)}


def said(text):
    """The lines of a text that say something, each with its number."""
    return [(number, line.strip()) for number, line in enumerate(text.splitlines(), 1) if not SILENT.fullmatch(line)]


def pairs(texts):
    """The pairs of places that share so many lines: the file and the line of each, and how many lines they share."""
    lines = {path: said(text) for path, text in texts.items()}
    words = {path: [word for _, word in some] for path, some in lines.items()}
    places = collections.defaultdict(list)
    for path, some in words.items():
        for at in range(len(some) - LINES + 1):
            places[tuple(some[at : at + LINES])].append((path, at))
    for some in places.values():
        if len(some) <= MOST_PLACES:
            for (path, at), (other, there) in itertools.combinations(some, 2):
                # (lines that begin earlier in both are of the pair that begins there)
                if not (at and there and words[path][at - 1] == words[other][there - 1]):
                    behind = zip(words[path][at:], words[other][there:])
                    count = sum(1 for _ in itertools.takewhile(lambda both: both[0] == both[1], behind))
                    yield (path, lines[path][at][0]), (other, lines[other][there][0]), count


def texts_of(ends):
    """The files of all crates that end so, by their paths."""
    for crate in crates():
        for at, _, names in os.walk(os.path.join(TOP, "crates", crate)):
            if f"{os.sep}out" not in at and f"{os.sep}edits" not in at:
                for path in (os.path.join(at, it) for it in names if it.endswith(ends)):
                    yield os.path.relpath(path, TOP), text_of(path)


def found():
    """How many pairs there are of each kind."""
    return {kind: sum(1 for _ in pairs(dict(sorted(texts_of(ends))))) for kind, ends in KINDS.items()}


def main():
    for kind, ends in KINDS.items():
        some = sorted(pairs(dict(sorted(texts_of(ends)))), key=lambda it: (-it[2], it))
        for (path, at), (other, there), count in some:
            print(f"{path}:{at} and {other}:{there} share {count} lines")
        print(f"{kind}: {len(some)} pairs of places")


if __name__ == "__main__":
    sys.exit(main())
