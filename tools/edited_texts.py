#!/usr/bin/env python3
"""Makes random edits that make, join and split line ends, and compares the tokens of the texts that they leave with those of a plain cut.

    tools/edited_texts.py [PROGRAM]

PROGRAM is that of the crate served_plainly. Of the short texts, in each encoding, half is line ends. Each has up to three edits at once, inside
characters and past ends too. Then a line feed is put before each line but the first, and at last a comment and a carriage return behind each line: so
it shows how long each line is, and how it ends. The long texts are blanks and comments in thousands of lines, of which the program keeps some hundred
in a chunk. In one of them a whole text is cut into chunks again and again, and edits are made where these meet; in the other edits alone make them.
"""
import functools
import json
import random
import re
import sys

import random_texts
import rows
import runs
from session_rows import CAPABILITIES, COMMENT, INITIALIZE, asked, changed, edit, opened

SEED = 1
# How many short texts there are in each encoding, and how many edits of each long text
TEXTS, EDITS = 170, 5000
SHORT_PIECES = ("\r", "\r", "\n", "\n", "\U0001f600", "a")
LONG_PIECES = ("\r", "\n", "\n", ";\r\n", ";", " ")
# How many lines a chunk has at most, and about how many a long text has
MOST_LINES, LINES = 512, 3072
# After so many edits the tokens of a long text are asked for.
EACH = 8
LINE_END = re.compile("(\r\n|\r|\n)")


def cut(text):
    """The lines of a text with their ends, of which the last one has none."""
    parts = LINE_END.split(text)
    return [line + end for line, end in zip(parts[::2], [*parts[1::2], ""])]


def placed(lines, units, line, character):
    """The line and the character of a position: one inside a character's units is before that character."""
    if line >= len(lines):
        return len(lines) - 1, len(lines[-1])
    content, at = lines[line].rstrip("\r\n"), 0
    while at < len(content) and units(content[: at + 1]) <= character:
        at += 1
    return line, at


def replace(lines, units, ends, new):
    """Replaces what is between two positions. The line before is cut anew too, as a line feed may come behind its carriage return."""
    (line, at), (last, end) = sorted(placed(lines, units, *it) for it in ends)
    first, is_last = max(0, line - 1), last == len(lines) - 1
    made = cut("".join(lines[first:line]) + lines[line][:at] + new + lines[last][end:])
    lines[first : last + 1] = made if is_last else made[:-1]


def short_text(choose):
    return "".join(choose.choices(SHORT_PIECES, k=choose.randrange(10)))


class Short:
    """A short text in a session."""

    def __init__(self, session, uri):
        self.session, self.uri = session, uri
        text = short_text(session.choose)
        self.lines = cut(text)
        session.notice("didOpen", {"uri": uri, "languageId": "abnf", "version": 1, "text": text})

    def edit(self, edits):
        """Makes these edits in one version, and asks for the tokens that they leave."""
        changes = []
        for ends, new in edits:
            replace(self.lines, random_texts.UNITS[self.session.encoding], ends, new)
            changes.append({"range": dict(zip(("start", "end"), map(random_texts.as_json, ends))), "text": new})
        self.session.notice("didChange", {"uri": self.uri, "version": 2}, contentChanges=changes)
        reading = random_texts.Reading("".join(self.lines), self.session.encoding)
        self.session.ask(self.uri, "semanticTokens/full", {"data": reading.numbers()})


def short_session(encoding):
    """A session about short texts, and how many edits it makes of them before those that show their lines."""
    choose = random.Random(f"{SEED} {encoding}")
    session, count = random_texts.Session(choose, encoding), 0
    for number in range(TEXTS):
        short = Short(session, f"file:///{number}")
        edits = [([(choose.randrange(6), choose.randrange(5)) for _ in range(2)], short_text(choose)) for _ in range(choose.randrange(4))]
        count += len(edits)
        short.edit(edits)
        short.edit([(2 * [(line, 0)], "\n") for line in range(len(short.lines) - 1, 0, -1)])
        short.edit([(2 * [(line, 99)], ";\r") for line in range(len(short.lines) - 1, -1, -1)])
        session.notice("didClose", {"uri": short.uri})
    return session, count


def short_cases(program):
    for encoding in random_texts.UNITS:
        session, count = short_session(encoding)
        answers = random_texts.answers_of(program, session.messages)
        wrong = [number for number, want in session.wanted.items() if not answers or answers.get(number) != want(answers)]
        yield f"{count} edits of {TEXTS} texts of line ends, in {encoding}", wrong, [], len(session.wanted)


def line_at(choose, count):
    """A line near a place where two chunks meet that a text of so many lines is cut into, or any up to one past the last."""
    if choose.randrange(4) == 0:
        return choose.randrange(count + 2)
    return max(0, choose.randrange(-(-count // MOST_LINES)) * MOST_LINES + choose.randrange(5) - 2)


def edit_at(choose, count):
    """The ends of an edit of a text of so many lines, and what is put there. One of 32 is large, and brings the lines back to about `LINES`."""
    lines, pieces = 3, choose.randrange(4)
    if choose.randrange(32) == 0:
        lines, pieces = (3, choose.randrange(3000)) if count < LINES else (2000, pieces)
    line = line_at(choose, count)
    ends = (line, choose.randrange(4)), (line + choose.randrange(lines), choose.randrange(4))
    return ends, "".join(choose.choices(LONG_PIECES, k=pieces))


def comments(text):
    """The numbers of the tokens of a text of blanks and comments."""
    numbers, last = [], 0
    for number, line in enumerate(LINE_END.split(text)[::2]):
        start = line.find(";")
        if start >= 0:
            numbers += number - last, start, len(line) - start, COMMENT, 0
            last = number
    return numbers


@functools.cache
def long_session(reopens):
    """The messages of a session about a long text, the tokens that are wanted, and how many lines it has at least. Where it reopens, the whole
    text is given anew behind each request."""
    choose = random.Random(SEED)
    text = "".join(choose.choices(LONG_PIECES, k=5000))
    messages, wanted, lines = [INITIALIZE, opened(text)], [], cut(text)
    least = len(lines)
    for number in range(EDITS):
        ends, new = edit_at(choose, len(lines))
        whole = [json.dumps({"text": "".join(lines)})] if reopens and number % EACH == 0 else []
        messages.append(changed(f"[{','.join([*whole, edit(*ends, new)])}]"))
        replace(lines, len, ends, new)
        least = min(least, len(lines))
        if number % EACH == EACH - 1:
            messages.append(asked("semanticTokens/full", ""))
            wanted.append(comments("".join(lines)))
    return messages, wanted, least


def long_cases(program):
    for reopens, where in ((True, "where the chunks of a whole text meet"), (False, "of chunks that edits have made")):
        messages, wanted, least = long_session(reopens)
        status, said, wrote = runs.outcome(program, runs.frames(messages), seconds=random_texts.SECONDS)
        told, _ = runs.bodies_of(wrote)
        answers = [json.loads(it)["result"]["data"] for it in told if it.startswith(b'{"id":2,')]
        clean = sum(b'"diagnostics":[]' in it for it in told)
        wrong = [number for number, want in enumerate(wanted) if number >= len(answers) or answers[number] != want]
        found = (status, said, told[:1], len(answers), clean, wrong)
        yield f"{EDITS} edits {where}", found, (1, b"", [CAPABILITIES.encode()], len(wanted), EDITS + 1, []), EDITS
        yield f"the least lines of the text with edits {where}", least > MOST_LINES, True


def cases(program):
    """What was edited, which answers differ, and that none may."""
    yield from short_cases(program)
    yield from long_cases(program)


def main(words):
    return rows.report(cases(*words or [rows.PLAIN]))


if __name__ == "__main__":
    sys.exit(main(sys.argv[1:]))
