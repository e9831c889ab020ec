#!/usr/bin/env python3
"""Checks that the pattern of the recipe in examples/github reads each line of findings that the worked rows have."""
import json
import os
import re
import sys

import findings_rows
from workspace import TOP

MATCHER = ("examples", "github", "matcher.json")
FINDING = re.compile(r"\d+:\d+: (error|warning): ")
DRAFT = "a draft: \u00e9.md"


def read(*path):
    with open(os.path.join(TOP, *path), encoding="utf-8") as file:
        return file.read()


def strings(value):
    """All strings in a table of rows."""
    if isinstance(value, str):
        yield value
    elif isinstance(value, tuple):
        for it in value:
            yield from strings(it)


def unread_lines():
    """What the recipe's pattern makes wrongly of the lines that the worked rows have."""
    (pattern,) = json.loads(read(*MATCHER))["problemMatcher"][0]["pattern"]
    parts = [pattern[it] for it in ("file", "line", "column", "severity", "message", "code")]
    tables = (findings_rows.ROWS, findings_rows.DRAFT_ROWS, findings_rows.XML_ROWS, findings_rows.WITH_ROWS)
    lines = sorted({it for it in strings(tables) if FINDING.match(it)})
    for line in lines:
        found = re.search(pattern["regexp"], f"{DRAFT}:{line}")
        if not found or found[parts[0]] != DRAFT or "{}:{}: {}: {} [{}]".format(*(found[it] for it in parts[1:])) != line:
            yield f"{'/'.join(MATCHER)} doesn't read: {line}"
    if not lines:
        yield "there are no lines of findings to read"


def main():
    wrong = [*unread_lines()]
    for it in wrong:
        print(it, file=sys.stderr)
    sys.exit(1 if wrong else 0)


if __name__ == "__main__":
    main()
